typedef int T; int x = (T + 1);
