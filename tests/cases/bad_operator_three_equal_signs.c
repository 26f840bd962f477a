int x = a === b;
