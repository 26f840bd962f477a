typeof(x) y;
