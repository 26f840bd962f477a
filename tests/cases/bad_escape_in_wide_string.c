int x[] = L"ab\z";
