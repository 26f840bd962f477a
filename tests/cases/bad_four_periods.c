int f(int, ....);
