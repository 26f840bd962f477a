typedef int T;
int V;
void f(void) {
    T * a;
    T (b);
    T (*c)[3];
    int d = sizeof (T), e = (T) + 1, g = (T) (a), h = (T) * a, i = (T) & a, j = (T) - 1;
    V * a;
    V (b);
    V (*c)[3];
    d = sizeof (V), e = (V) + 1, g = (V) (a), h = (V) * a, i = (V) & a, j = (V) - 1;
}
