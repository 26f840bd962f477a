typedef int T; int T; T x;
