int x = (a +
