#ifndef HOST_STDLIB_H
#define HOST_STDLIB_H
#include <stddef.h>
void *malloc(size_t size);
void free(void *area);
_Noreturn void exit(int status);
unsigned long strtoul(const char *restrict digits, char **restrict end, int base);
#endif
