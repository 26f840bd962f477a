_Bool x;
