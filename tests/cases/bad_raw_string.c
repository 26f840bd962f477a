char *x = R"(a)";
