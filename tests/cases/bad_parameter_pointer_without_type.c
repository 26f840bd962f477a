int f(*a);
