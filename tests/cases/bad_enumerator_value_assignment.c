enum e { A = b = c };
