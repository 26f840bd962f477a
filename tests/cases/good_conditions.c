void f(void) {
    if (a) ;
    if ((a)) ;
    if (a == b) ;
    if ((a = b)) ;
    if ((a = b) == c) ;
    if (!a) ;
    if (!(a && b) || c) ;
    if (a, b) ;
    if (*a) ;
    if (a()) ;
    if ("a") ;
    if (1) ;
    if (sizeof (int)) ;
    if ((int) a) ;
}
