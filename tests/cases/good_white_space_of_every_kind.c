	int x
=	1 ;