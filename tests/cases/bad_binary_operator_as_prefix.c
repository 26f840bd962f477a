int x = / a;
