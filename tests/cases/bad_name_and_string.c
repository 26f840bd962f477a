int x = a "b";
