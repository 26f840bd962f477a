int x; // it's
