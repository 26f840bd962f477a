int x = "a" 'b';
