char *x = "é	";
int y = 'é';
