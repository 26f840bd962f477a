typedef int T; T T x;
