int x[][;
