typedef int T; enum e { A = T };
