int x = a + return;
