int x = '\';
