int x = { 1 );
