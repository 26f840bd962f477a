struct s { int a : b ? 1 : 2, : 3; };
void f(void) {
    a: b ? c : d;
    case b ? c : d: default: e: ;
    { struct { int g : 1; int : 2; } h; i: h.g ? 1 : 2; }
}
