void f(void) {
    if (a) switch (b) case 1: if (c) x(); else y();
    if (a) switch (b) if (c) x(); else y(); else z();
    if (a) switch (b) { case 1: if (c) x(); } else y();
    if (a) switch (b) default: x(); else y();
}
