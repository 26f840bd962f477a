int x = a + ;
