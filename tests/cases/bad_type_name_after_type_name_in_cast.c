typedef int T, U; int x = (T U) y;
