/* What an ordinary C program needs of this header, where the machine has none: the functions are the kit's C library's. */
#ifndef STDIO_H
#define STDIO_H

#include <stdarg.h>
#include <stddef.h>

typedef struct file FILE;
extern FILE *stdin, *stdout, *stderr;

#define EOF (-1)
#define SEEK_SET 0
#define SEEK_CUR 1
#define SEEK_END 2

int printf(const char *format, ...) __attribute__((format(printf, 1, 2)));
int fprintf(FILE *file, const char *format, ...) __attribute__((format(printf, 2, 3)));
int snprintf(char *place, size_t size, const char *format, ...) __attribute__((format(printf, 3, 4)));
int vfprintf(FILE *file, const char *format, va_list list);
int vsnprintf(char *place, size_t size, const char *format, va_list list);
int puts(const char *text);
int putchar(int c);
int fputs(const char *text, FILE *file);
int fputc(int c, FILE *file);
int getchar(void);
int fgetc(FILE *file);
char *fgets(char *place, int size, FILE *file);
FILE *fopen(const char *name, const char *mode);
int fclose(FILE *file);
int fflush(FILE *file);
int fseek(FILE *file, long offset, int from);
long ftell(FILE *file);
int feof(FILE *file);
int ferror(FILE *file);
void perror(const char *text);
size_t fread(void *place, size_t size, size_t count, FILE *file);
size_t fwrite(const void *place, size_t size, size_t count, FILE *file);

#endif
