int x := b;
