/* A program for Windows that imports two functions of one library. */
__declspec(dllimport) __declspec(noreturn) void __stdcall ExitProcess(unsigned code);
__declspec(dllimport) unsigned __stdcall GetTickCount(void);

static unsigned square(unsigned n)
{
    unsigned sum = 0;
    for (unsigned i = 0; i < n; i++)
        sum += 2 * i + 1;
    return sum;
}

void start(void)
{
    ExitProcess(square(GetTickCount() & 7));
}
