void f(void) { do } while (a); }
