typedef int T; T x y;
