int x = 1 "b";
