int x = '\x';
