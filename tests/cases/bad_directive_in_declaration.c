int x,
#ident "a"
y;
