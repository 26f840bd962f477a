void f(void) { switch (a) int b; }
