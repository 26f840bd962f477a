int x asm("y");
