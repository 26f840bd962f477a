int x = a + * ;
