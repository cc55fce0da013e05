/* What an ordinary C program needs of this header, where the machine has none: the functions are the kit's C library's. */
#ifndef STDLIB_H
#define STDLIB_H

#include <stddef.h>

#define EXIT_SUCCESS 0
#define EXIT_FAILURE 1

__attribute__((noreturn)) void exit(int status);
__attribute__((noreturn)) void abort(void);
void *malloc(size_t size);
void *calloc(size_t count, size_t size);
void *realloc(void *place, size_t size);
void free(void *place);
int atoi(const char *text);
long strtol(const char *text, char **end, int base);
unsigned long strtoul(const char *text, char **end, int base);
unsigned long long strtoull(const char *text, char **end, int base);
char *getenv(const char *name);
int abs(int number);
int rand(void);
void srand(unsigned seed);
void qsort(void *place, size_t count, size_t size, int (*compare)(const void *, const void *));

#endif
