typedef int T; int x = 1 + T;
