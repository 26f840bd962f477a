int f { }
