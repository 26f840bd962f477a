typedef int T; (T)() { }
