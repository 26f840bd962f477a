typedef int T;
struct s { T (T); T (*x), (y[3]); int (z); const T (w); unsigned T : 3; };
struct t { struct T *T; enum T { A } u; T v : 2; };
T x;
