enum e { A, int };
