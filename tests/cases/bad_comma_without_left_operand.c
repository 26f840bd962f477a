int x = (, a);
