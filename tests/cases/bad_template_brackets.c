a<b> c;
