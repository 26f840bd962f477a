typedef struct list List;
struct list { int value; List *next; };
extern void *malloc(unsigned long);
extern void free(void *);
static List *cons(int value, List *next)
{
    List *l = (List *) malloc(sizeof(List));
    if (l == 0)
        return 0;
    l->value = value;
    l->next = next;
    return (l);
}
static int length(l) register const List *l;
{
    int n = 0;
    for (; l != (List *) 0; l = l->next)
        n++;
    return n;
}
static List **last(List **l) { while (*l) l = &(*l)->next; return l; }
int main(int argc, char *argv[])
{
    List *l = 0, **end = &l;
    while (--argc > 0)
        (*end = cons(argc, 0)) ? (void) (end = &(*end)->next) : (void) 0;
    do {
        List *rest = l ? l->next : 0;
        if (l) free((void *) l);
        l = rest;
    } while (l);
    return length(l) == 0 && *last(&l) == 0 ? 0 : 1;
}
