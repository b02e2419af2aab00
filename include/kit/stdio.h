/* A part of stdio.h, for `./archive SOURCE.c PROGRAM`: the kit has a C library, glibc, and no C headers. What else a
 * program uses of the C library, it must declare itself. */
#ifndef WICK_KIT_STDIO_H
#define WICK_KIT_STDIO_H

#define NULL ((void *)0)
#define EOF (-1)

typedef __SIZE_TYPE__ size_t;
typedef struct _IO_FILE FILE;
extern FILE *stdin, *stdout, *stderr;

FILE *fopen(const char *path, const char *mode);
int fclose(FILE *file);
size_t fread(void *to, size_t size, size_t count, FILE *file);
size_t fwrite(const void *from, size_t size, size_t count, FILE *file);
char *fgets(char *to, int size, FILE *file);
int fflush(FILE *file);
int ferror(FILE *file);
int feof(FILE *file);
int printf(const char *format, ...) __attribute__((format(printf, 1, 2)));
int fprintf(FILE *file, const char *format, ...) __attribute__((format(printf, 2, 3)));
int snprintf(char *to, size_t size, const char *format, ...) __attribute__((format(printf, 3, 4)));
int sscanf(const char *from, const char *format, ...) __attribute__((format(scanf, 2, 3)));
int puts(const char *line);
void perror(const char *what);

#endif
