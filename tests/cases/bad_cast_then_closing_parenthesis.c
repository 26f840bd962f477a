int x = ((int)) y;
