void f(void) { if (a) do x(); else y(); while (b); }
