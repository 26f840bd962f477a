@syntax @exp m @{ ( $$exp::x ) @} { return `(b + $x); }
typedef int b; int a = m(1);
