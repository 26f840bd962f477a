typedef int T, U; int f(T U, U x);
