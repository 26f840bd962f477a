enum e { A,
