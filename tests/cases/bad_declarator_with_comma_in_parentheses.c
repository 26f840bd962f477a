int (x, y);
