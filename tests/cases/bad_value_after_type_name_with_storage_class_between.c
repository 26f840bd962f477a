typedef int T; T static U x;
