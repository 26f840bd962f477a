enum e { (A) };
