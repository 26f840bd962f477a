#line3
