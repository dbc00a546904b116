#ifndef HOST_STDIO_H
#define HOST_STDIO_H
#include <stddef.h>
typedef struct _IO_FILE FILE;
int printf(const char *restrict form, ...);
int fflush(FILE *file);
#endif
