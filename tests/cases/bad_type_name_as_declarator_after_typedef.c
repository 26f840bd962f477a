typedef int T; typedef T[3];
