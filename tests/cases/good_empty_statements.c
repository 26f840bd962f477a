void f(void) {
    ;;
    { ; }
    { }
    {;;}
    if (a);
    if (a); else;
    while (a);
    do; while (a);
    for (;;);
    switch (a);
    l:;
    case 1:;
    default:;
    {{}}
    {{;}}
}
