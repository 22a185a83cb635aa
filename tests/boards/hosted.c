/* The recorded cases over a C library. */
#include "port.h"

#include <stdio.h>

size_t port_read(char *bytes, size_t size)
{
    return fread(bytes, 1, size, stdin);
}

void port_write(const char *bytes, size_t size)
{
    if (fwrite(bytes, 1, size, stdout) != size)
        perror("cases");
}

int main(void)
{
    return cases();
}
