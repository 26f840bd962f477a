#lines 3
