int x = ';
