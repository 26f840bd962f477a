int a::b;
