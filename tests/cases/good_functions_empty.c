void a(void) { }
void b() {}
int c(int x)
{
}
d() { }
e(a, b) { }
f(void) {;}
static g() { }
const h() { }
*i() { }
**j(a) { }
