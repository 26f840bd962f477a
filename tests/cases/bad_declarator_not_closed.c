int (x;
