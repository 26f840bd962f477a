int a = 08;
int b = '';
