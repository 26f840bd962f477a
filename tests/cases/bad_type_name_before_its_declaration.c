T x; typedef int T;
