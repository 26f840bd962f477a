int x = L'';
