struct point
{
    int x;   /* left */
    int y;   /* up */
}
origin,
*where;
union
{
    struct point p;
    int a [ 2 ];
} u
;
struct point { int (x), (*y); };
