char *a = "a" "b";
char *b = "a""b""c";
char *c = "a"
    "b" /* between */ "c";
int d[] = L"a" L"b";
int e[] = "a" L"b";
char *f = ("a") ;
char *g = f("a" "b", "c");
char h[] = { "a" "b" };
int i = "a" "b"[1];
int j = *"a" "b";
int k = ("a" "b")[1];
