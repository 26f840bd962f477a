int T(void); T x;
