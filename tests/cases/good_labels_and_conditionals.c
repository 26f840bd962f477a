void f(void) {
    a: b ? c : d;
    b ? c : (d);
    case a ? b : c: d ? e : f;
    case (a): b: c;
    a: b: c ? d : e;
    switch (a) { case 1 ? 2 : 3 ? 4 : 5: ; }
    default: a ? b : c;
    if (a ? b : c) d: e;
}
