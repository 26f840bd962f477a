typedef int T; T [3];
