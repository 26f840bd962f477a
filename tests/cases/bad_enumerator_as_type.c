enum e { T }; T x;
