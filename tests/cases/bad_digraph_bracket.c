int x<:3:>;
