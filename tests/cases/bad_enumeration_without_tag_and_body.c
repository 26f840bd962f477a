enum;
