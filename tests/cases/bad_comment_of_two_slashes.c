int x; // comment
