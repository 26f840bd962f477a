int z = a ? b : c = d;
