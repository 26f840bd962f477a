unsigned enum e x;
