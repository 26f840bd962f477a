int x */ ;
