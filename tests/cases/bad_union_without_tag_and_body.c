union;
