/* What the example uses of the C library's signal.h, with the numbers of x86-64 Linux. */
#define SIGPIPE 13
#define SIG_IGN ((void (*)(int))1)

void (*signal(int number, void (*what)(int)))(int);
