void *malloc(unsigned size) { (void)size; return 0; }
int puts(const char *text) { (void)text; return 0; }
void exit(int status) { (void)status; for (;;); }
