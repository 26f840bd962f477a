typedef int T;
T *a[3], f(T (*)(void));
struct s { T x; unsigned y : 3; } b = { 1, 2 };
int main(void)
{
    T T = sizeof(T);
    for (T = 0; T < 3; ++T)
        a[T] = (int *)0;
    return f(0) + T * 2;
}
