/* A program that imports three functions: it fills a block of memory, prints it and ends. */
extern void *malloc(unsigned size);
extern int puts(const char *text);
extern void exit(int status) __attribute__((noreturn));

static void fill(char *to, const char *from)
{
    while ((*to++ = *from++) != 0)
        ;
}

void _start(void)
{
    char *text = malloc(16);
    if (text == 0)
        exit(1);
    fill(text, "hello");
    puts(text);
    exit(0);
}
