int x = (int *;
