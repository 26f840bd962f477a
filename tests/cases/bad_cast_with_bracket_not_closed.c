int x = (int [) p;
