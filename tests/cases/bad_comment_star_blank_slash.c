int x; /* * /
