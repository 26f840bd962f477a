int x = "a\q";
