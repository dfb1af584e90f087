/* The whole numbers, as gcc has them for a processor without a C library. */
#include <stdint-gcc.h>
