int a; int b(void) { } int c; struct s { int d; }; e() { } f(x) int x; { } enum { g }; *h() { } typedef int T; T i; T j(T k) { } (l)() { }
