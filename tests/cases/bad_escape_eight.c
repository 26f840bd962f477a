int x = '\8';
