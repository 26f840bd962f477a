void f(void) { if (a) then b(); }
