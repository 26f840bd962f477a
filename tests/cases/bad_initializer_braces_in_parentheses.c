int x = ({ 1 });
