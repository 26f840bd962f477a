typedef int T; const T = 1;
