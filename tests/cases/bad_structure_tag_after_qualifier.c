struct const s x;
