typedef int T; int f(a, b) int T; T b; { }
