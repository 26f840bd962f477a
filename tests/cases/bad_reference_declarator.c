int &x;
