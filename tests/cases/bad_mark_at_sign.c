int x = @;
