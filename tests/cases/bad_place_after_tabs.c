	int	x	=	;
