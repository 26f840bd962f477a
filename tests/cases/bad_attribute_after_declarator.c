int x __attribute__((aligned));
