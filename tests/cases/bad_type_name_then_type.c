typedef int T; T int x;
