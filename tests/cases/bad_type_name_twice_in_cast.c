typedef int T; int x = (T T) y;
