int "x";
