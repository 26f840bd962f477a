int x = 1uu;
