/* What the programs of this folder take of C's library, declared by hand: the toolchain's compiler has no header files.
   Any other compiler for a machine of 64 bits takes it too. */
#ifndef PLAIN_H
#define PLAIN_H

typedef __UINT8_TYPE__ uint8_t;
typedef __UINT32_TYPE__ uint32_t;
typedef __UINT64_TYPE__ uint64_t;
typedef __SIZE_TYPE__ size_t;

#define NULL ((void *)0)

long read(int file, void *to, size_t most);
long write(int file, const void *from, size_t n);
int open(const char *path, int flags, ...);
int close(int file);

int printf(const char *format, ...);
int dprintf(int file, const char *format, ...);
int snprintf(char *to, size_t room, const char *format, ...);

void *memcpy(void *restrict to, const void *restrict from, size_t n);
void *memset(void *to, int byte, size_t n);
int memcmp(const void *a, const void *b, size_t n);
int strcmp(const char *a, const char *b);
size_t strlen(const char *s);

unsigned long strtoul(const char *s, char **end, int base);

#endif
