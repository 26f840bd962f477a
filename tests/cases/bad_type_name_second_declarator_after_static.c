typedef int T; static x, T;
