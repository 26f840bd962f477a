int a = twice(1);
