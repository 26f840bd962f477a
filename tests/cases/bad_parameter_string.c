int f("a");
