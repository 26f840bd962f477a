int x = "a" b;
