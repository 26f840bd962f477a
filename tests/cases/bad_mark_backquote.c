int x = `1;
