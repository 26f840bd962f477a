int x = a.*b;
