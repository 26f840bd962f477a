int x = (++);
