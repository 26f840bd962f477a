int x = a ? b : c : d;
