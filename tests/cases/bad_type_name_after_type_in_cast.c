typedef int T; int x = (unsigned T) y;
