enum e { A = , B };
