/*
 * The few declarations of x86-64 Linux's C library that the programs here use. The kit's compiler
 * comes without headers, and the headers of an Arm machine describe another processor: x86.sh puts
 * this file in the place of each standard header where it builds with the kit.
 */
#ifndef LIBC_H
#define LIBC_H

typedef unsigned char uint8_t;
typedef long int64_t;
typedef unsigned long uint64_t;
typedef unsigned long size_t;
typedef struct _IO_FILE FILE;

#ifdef __cplusplus
#define NULL 0
extern "C" {
#else
#define NULL ((void *)0)
#endif
#define INT64_MIN (-9223372036854775807L - 1)

extern FILE *stdout, *stderr;
int printf(const char *format, ...) __attribute__((format(printf, 1, 2)));
int fprintf(FILE *file, const char *format, ...) __attribute__((format(printf, 2, 3)));
FILE *fopen(const char *name, const char *mode);
size_t fread(void *to, size_t size, size_t n, FILE *file);
int ferror(FILE *file);
int fclose(FILE *file);

int puts(const char *line);

struct timespec {
    long tv_sec, tv_nsec;
};
#define CLOCK_MONOTONIC 1
int clock_gettime(int clock, struct timespec *time);

void *malloc(size_t size);
void *realloc(void *old, size_t size);
void free(void *old);
void exit(int status) __attribute__((noreturn));
unsigned long long strtoull(const char *text, char **rest, int base);

void *memset(void *to, int byte, size_t size);
void *memcpy(void *to, const void *from, size_t size);
int memcmp(const void *a, const void *b, size_t size);

char *strerror(int number);
int *__errno_location(void);
#define errno (*__errno_location())

#ifdef __cplusplus
}
#endif

#endif
