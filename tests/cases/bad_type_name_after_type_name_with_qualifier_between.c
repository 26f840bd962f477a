typedef int T, U; T const U x;
