typedef int T; T struct s x;
