struct int { int a; };
