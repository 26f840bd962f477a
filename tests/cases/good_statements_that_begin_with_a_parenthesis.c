typedef int T;
void f(void) {
    int a;
    (a);
    (a)(1);
    (a) * 1;
    (T) a;
    (T) (a);
    (T) (a)(1);
    ((T) a)(1);
    (T) * a;
    (T) & a, a;
    (T *) a;
    (*a)(1);
    (a)++;
    (a), a;
    (a) ? a : a;
    (a) = 1;
    ((a)) += 1;
    (*(T *) a) = 1;
    (void) 0;
    (struct s *) a;
    (int) sizeof (a);
    ("a");
    (-a);
}
