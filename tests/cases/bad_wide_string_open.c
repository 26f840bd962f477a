int x[] = L"abc;
