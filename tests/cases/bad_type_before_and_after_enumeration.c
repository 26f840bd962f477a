enum e unsigned x;
