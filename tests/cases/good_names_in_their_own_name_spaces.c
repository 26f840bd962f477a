struct a { int a; } a;
union b { struct a b; } b;
enum c { d } c;
void f(void) {
    a: goto a;
    b: a.a = b.b.a;
    { struct a f; f.a = 1; f: goto f; }
    c = d;
    d: c = sizeof (struct a);
}
