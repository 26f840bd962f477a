int x = 'a' 'b';
