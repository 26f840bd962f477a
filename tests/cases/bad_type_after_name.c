int x int;
