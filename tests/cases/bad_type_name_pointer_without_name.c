typedef int T; T *;
