main(argc, argv) char **argv; { return argc ? 0 : 1; }
struct node { struct node *next; int key : 4; } ;
int sum(struct node *p) { int s = 0; for (; p; p = p->next) s += p->key; return s; }
