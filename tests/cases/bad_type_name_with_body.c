typedef int T; T { int a; } x;
