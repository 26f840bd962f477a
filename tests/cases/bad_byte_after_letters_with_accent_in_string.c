char *x = "éé" «;
