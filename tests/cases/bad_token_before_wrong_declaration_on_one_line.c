int \ x y;
