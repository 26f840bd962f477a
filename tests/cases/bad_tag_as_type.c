struct T { int a; }; T x;
