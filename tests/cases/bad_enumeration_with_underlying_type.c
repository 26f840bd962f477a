enum e : int { A };
