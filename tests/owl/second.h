/* A second checker of OWL texts, written from the specification alone, and the few functions of the C library that the runs call. They
   are declared here because the kit has no headers of C. */

#ifndef OWL_SECOND_H
#define OWL_SECOND_H

typedef __SIZE_TYPE__ size_t;
typedef __UINT32_TYPE__ uint32_t;
typedef __UINT64_TYPE__ uint64_t;

#define NULL ((void *)0)

void *malloc(size_t length);
void *realloc(void *old, size_t length);
void free(void *old);
void *memcpy(void *to, const void *from, size_t length);
int memcmp(const void *one, const void *other, size_t length);
void *memchr(const void *text, int byte, size_t length);
size_t strlen(const char *text);
int strcmp(const char *one, const char *other);
char *strstr(const char *text, const char *part);
char *strrchr(const char *text, int byte);
int printf(const char *format, ...);
int open(const char *path, int how, ...);
long read(int file, void *to, size_t length);
int close(int file);

struct timespec {
    long seconds, nanoseconds;
};
int clock_gettime(int clock, struct timespec *time);

_Noreturn void exit(int status);
_Noreturn void abort(void);

/* Returns 0, 10 or 11; the place is in *place. */
unsigned second_check(const unsigned char *text, size_t length, size_t *place);

/* A plain tokenizer and bracket counter: the number of tokens, or 0 where the brackets do not match. */
size_t plain_count(const unsigned char *text, size_t length);

#endif
