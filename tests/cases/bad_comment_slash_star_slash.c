int x; /*/
