int x = a * / b;
