typedef int T; *T() { }
