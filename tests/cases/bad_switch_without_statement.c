void f(void) { switch (a) }
