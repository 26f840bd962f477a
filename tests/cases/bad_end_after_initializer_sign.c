int x =
