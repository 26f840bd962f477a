int x = a ..5;
