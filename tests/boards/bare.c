/* The recorded cases with no C library, as on a board: what a monitor on bare metal supplies to the archive is
 * memset and memcpy, and a stack. Input and output are system calls of riscv64, which the emulator of user
 * programs answers. */
#include "port.h"

#include <stdint.h>

#define READ 63
#define WRITE 64
#define EXIT 93

/* A compiler would make a call of memset out of the plain loop. */
__attribute__((optimize("no-tree-loop-distribute-patterns")))
void *memset(void *to, int byte, size_t size)
{
    unsigned char *p = to;
    while (size-- > 0)
        *p++ = (unsigned char)byte;
    return to;
}

__attribute__((optimize("no-tree-loop-distribute-patterns")))
void *memcpy(void *restrict to, const void *restrict from, size_t size)
{
    unsigned char *p = to;
    const unsigned char *q = from;
    while (size-- > 0)
        *p++ = *q++;
    return to;
}

static long system_call(long number, long a, long b, long c)
{
    register long a7 __asm__("a7") = number;
    register long a0 __asm__("a0") = a;
    register long a1 __asm__("a1") = b;
    register long a2 __asm__("a2") = c;
    __asm__ volatile("ecall" : "+r"(a0) : "r"(a7), "r"(a1), "r"(a2) : "memory");
    return a0;
}

size_t port_read(char *bytes, size_t size)
{
    const long n = system_call(READ, 0, (long)(intptr_t)bytes, (long)size);
    return n > 0 ? (size_t)n : 0;
}

void port_write(const char *bytes, size_t size)
{
    while (size > 0) {
        const long n = system_call(WRITE, 1, (long)(intptr_t)bytes, (long)size);
        if (n <= 0)
            system_call(EXIT, 1, 0, 0);
        bytes += n;
        size -= (size_t)n;
    }
}

void start(void);

void start(void)
{
    system_call(EXIT, cases(), 0, 0);
    for (;;)
        continue;
}

/* The stack is aligned as the ABI asks, and gp set for data that the linker reaches by it. */
__asm__(".globl _start\n"
        "_start:\n"
        ".option push\n"
        ".option norelax\n"
        "\tla gp, __global_pointer$\n"
        ".option pop\n"
        "\tandi sp, sp, -16\n"
        "\tj start\n");
