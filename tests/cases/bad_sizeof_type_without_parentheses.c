int x = sizeof int;
