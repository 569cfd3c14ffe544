/* Number types, and the few functions of the C library that the tests call.
   They are declared here because the kit has no headers of C. */

#ifndef BASE_H
#define BASE_H

typedef __UINT8_TYPE__ u8;
typedef __UINT32_TYPE__ u32;
typedef __UINT64_TYPE__ u64;

void *memcpy(void *to, const void *from, __SIZE_TYPE__ length);
void *memset(void *to, int byte, __SIZE_TYPE__ length);
int memcmp(const void *one, const void *other, __SIZE_TYPE__ length);
int strcmp(const char *one, const char *other);
__SIZE_TYPE__ strlen(const char *text);
_Noreturn void exit(int status);

#endif
