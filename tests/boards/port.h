/* What the recorded cases need of the machine below them, so that one program runs hosted and bare. */
#ifndef PORT_H
#define PORT_H

#include <stddef.h>

/* Reads up to size bytes of standard input; how many there were, 0 at its end. */
size_t port_read(char *bytes, size_t size);

/* Writes all bytes to standard output. */
void port_write(const char *bytes, size_t size);

/* The program; its answer is the exit status. */
int cases(void);

#endif
