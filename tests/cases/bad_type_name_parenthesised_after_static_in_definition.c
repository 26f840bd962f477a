typedef int T; static (T)(void) { }
