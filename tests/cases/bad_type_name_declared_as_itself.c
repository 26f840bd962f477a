typedef int T; T T; T x;
