int f(void) = 1;
typedef int t = 2;
extern int x = 3;
struct s { int a; } y = { 1 }, *z = 0;
enum e { A } b = A;
const int c = 4, d = { 5, };
unsigned e1 = 6;
int g() = { f };
