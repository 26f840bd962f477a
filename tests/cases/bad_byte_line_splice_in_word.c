int ab\
cd;
