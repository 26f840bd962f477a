/**/int/**/x/**/;/***/
/* a * b / c /* d **/ int y = 1 /* + 2 */ + /* */ 3;
/*/ int no; /*/ int z;
int/* a
b */a /*"*/ = /*'*/ 2;
int b = 1 //* c */ 2;
int c = a+/**/+b;
int d = a-/**/-b;
int e = a&/**/&b;
int g /* // */ ; /* # */
/* \ @ ` $ \q */
/* int h; */
int i; /* é */ int j;
/* last */
