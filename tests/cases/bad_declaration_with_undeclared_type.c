x y;
