int x[3] { }
