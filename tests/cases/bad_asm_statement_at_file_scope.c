asm("x");
