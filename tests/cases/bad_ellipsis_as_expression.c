int x = ...;
