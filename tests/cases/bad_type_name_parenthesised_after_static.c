typedef int T; static (T);
