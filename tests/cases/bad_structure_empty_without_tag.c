struct { } x;
