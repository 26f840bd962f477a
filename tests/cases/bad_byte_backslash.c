int x = \;
