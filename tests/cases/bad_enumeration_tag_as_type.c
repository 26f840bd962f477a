enum T { A }; T x;
