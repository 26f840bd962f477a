int a@b;
