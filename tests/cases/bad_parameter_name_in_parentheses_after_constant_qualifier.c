int f(const (x));
