struct 3 { int a; };
