typedef int T; T() { }
