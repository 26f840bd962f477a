int x /* one
two */ y;
