typedef int T; int f(int (T));
