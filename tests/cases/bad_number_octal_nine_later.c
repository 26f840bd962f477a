int x = 0179;
