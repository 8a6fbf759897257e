/*
 * The start of a program and the few functions of the C library that the tests use, for IA-32
 * under Linux. A host's C library is compiled for a later processor than a board may have; a
 * program with these holds code for the processor that it is compiled for, and no other.
 */
#include <string.h>
#include <unistd.h>

/* A loop here must not become a call of the function that it is. */
#pragma GCC optimize("no-tree-loop-distribute-patterns")

enum { CALL_EXIT = 1, CALL_READ = 3, CALL_WRITE = 4 };

int main(int count, char **words);
void start(int count, char **words);

__asm__(
    ".globl _start\n"
    "_start:\n"
    "    movl %esp, %eax\n"
    "    leal 4(%eax), %ecx\n"
    "    pushl %ecx\n"
    "    pushl (%eax)\n"
    "    call start\n");

static long system_call(long number, long first, const void *second, unsigned long third)
{
    long result;
    __asm__ volatile("int $0x80"
                     : "=a"(result)
                     : "0"(number), "b"(first), "c"(second), "d"(third)
                     : "memory");
    return result;
}

void start(int count, char **words)
{
    system_call(CALL_EXIT, main(count, words), NULL, 0);
}

ssize_t read(int file, void *bytes, size_t length)
{
    return system_call(CALL_READ, file, bytes, length);
}

ssize_t write(int file, const void *bytes, size_t length)
{
    return system_call(CALL_WRITE, file, bytes, length);
}

void *memcpy(void *restrict to, const void *restrict from, size_t length)
{
    void *bytes = to;
    __asm__ volatile("rep movsb" : "+D"(bytes), "+S"(from), "+c"(length) : : "memory");
    return to;
}

void *memmove(void *to, const void *from, size_t length)
{
    char *bytes = to;
    const char *source = from;
    if (bytes <= source || bytes >= source + length)
        return memcpy(to, from, length);
    while (length-- > 0)
        bytes[length] = source[length];
    return to;
}

void *memset(void *to, int byte, size_t length)
{
    void *bytes = to;
    __asm__ volatile("rep stosb" : "+D"(bytes), "+c"(length) : "a"(byte) : "memory");
    return to;
}

int memcmp(const void *left, const void *right, size_t length)
{
    const unsigned char *one = left;
    const unsigned char *other = right;
    for (; length > 0; length--, one++, other++)
        if (*one != *other)
            return *one < *other ? -1 : 1;
    return 0;
}

size_t strlen(const char *text)
{
    size_t length = 0;
    while (text[length] != '\0')
        length++;
    return length;
}
