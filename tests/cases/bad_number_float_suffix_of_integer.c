float x = 1f;
