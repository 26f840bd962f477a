enum e { A = 1 2 };
