int * *;
