int x = a ++ b;
