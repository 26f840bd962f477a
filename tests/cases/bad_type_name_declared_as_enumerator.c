typedef int T; enum e { T }; T x;
