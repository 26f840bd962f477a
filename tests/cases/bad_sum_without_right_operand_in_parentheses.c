int x = (a +;
