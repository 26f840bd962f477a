@syntax @exp twice @{ ( $$exp::x ) @} { return `($x + $x); }
int a = twice(b * 2);
int c = twice(1 + 2) * 3;
