int [3] x;
