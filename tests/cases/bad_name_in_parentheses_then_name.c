int (x) y;
