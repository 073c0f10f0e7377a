/* What the rig takes from the C library.
 *
 * With a system's own compiler these are the standard headers. The kit's clang comes without headers, and on another
 * machine the system's headers (if any) are for another processor: there, RIG_KIT is set and the few things that
 * the rig uses are declared here, as the x86-64 C library of the kit has them. */
#ifndef RIG_SYSTEM_H
#define RIG_SYSTEM_H

#ifndef RIG_KIT

#ifndef _DEFAULT_SOURCE
#define _DEFAULT_SOURCE /* mmap and clock_gettime beside C11 */
#endif
#include <signal.h>
#include <stdbool.h>
#include <stddef.h>
#include <stdint.h>
#include <stdio.h>
#include <stdlib.h>
#include <string.h>
#include <sys/mman.h>
#include <time.h>

#else

typedef __SIZE_TYPE__ size_t;
typedef __UINT8_TYPE__ uint8_t;
typedef __UINT16_TYPE__ uint16_t;
typedef __UINT32_TYPE__ uint32_t;
typedef __UINT64_TYPE__ uint64_t;
typedef __INT64_TYPE__ int64_t;
#define UINT32_MAX 0xFFFFFFFFu
#define UINT64_MAX 0xFFFFFFFFFFFFFFFFul
#define UINT64_C(c) c##ul
#define NULL ((void *)0)
#define bool _Bool
#define true 1
#define false 0

typedef struct rig_file FILE;
extern FILE *stdout;
int printf(const char *, ...);
int snprintf(char *, size_t, const char *, ...);
FILE *fopen(const char *, const char *);
size_t fwrite(const void *, size_t, size_t, FILE *);
int fclose(FILE *);
int fflush(FILE *);

void *malloc(size_t);
void exit(int) __attribute__((noreturn));
void _Exit(int) __attribute__((noreturn));
unsigned long long strtoull(const char *, char **, int);
void qsort(void *, size_t, size_t, int (*)(const void *, const void *));

void *memcpy(void *, const void *, size_t);
void *memmove(void *, const void *, size_t);
void *memset(void *, int, size_t);
int memcmp(const void *, const void *, size_t);
int strcmp(const char *, const char *);
size_t strlen(const char *);

struct timespec {
    long tv_sec;
    long tv_nsec;
};
#define CLOCK_MONOTONIC 1
int clock_gettime(int, struct timespec *);

#define SIGBUS 7
#define SIGSEGV 11
void (*signal(int, void (*)(int)))(int);

#define PROT_NONE 0
#define PROT_READ 1
#define PROT_WRITE 2
#define MAP_PRIVATE 0x02
#define MAP_ANONYMOUS 0x20
#define MAP_FAILED ((void *)-1)
void *mmap(void *, size_t, int, int, int, long);
int mprotect(void *, size_t, int);

#endif

#endif
