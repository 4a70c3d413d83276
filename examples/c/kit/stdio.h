#ifndef STDIO_H
#define STDIO_H
#include <stddef.h>
typedef struct stream FILE;
extern FILE *stdin, *stdout, *stderr;
int printf(const char *, ...);
int fprintf(FILE *, const char *, ...);
int putchar(int);
int puts(const char *);
size_t fread(void *, size_t, size_t, FILE *);
int ferror(FILE *);
int fflush(FILE *);
#endif
