enum e { A; };
