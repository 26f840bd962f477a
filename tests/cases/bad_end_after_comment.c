int x /* comment */
   
