typedef int T; T (*);
