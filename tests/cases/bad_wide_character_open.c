int x = L'a;
