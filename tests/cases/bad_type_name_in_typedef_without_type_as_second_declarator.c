typedef int T; typedef x, T;
