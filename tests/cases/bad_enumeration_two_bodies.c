enum e { A } { B };
