int x = ->b;
