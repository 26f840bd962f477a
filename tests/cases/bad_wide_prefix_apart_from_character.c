int x = L 'a';
