__attribute__((packed)) int x;
