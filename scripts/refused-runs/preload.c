/* Refuses one call of malloc or realloc of the program that this is loaded before: that of the number in JVHOST_REFUSED, the first at 0.
 * Where it came to that call, a byte is written to the file descriptor in JVHOST_TOLD. With glibc. */
#include "../../bindings/c/failing.h"
#include <stdlib.h>
#include <unistd.h>

static int told = -1;

__attribute__((constructor)) static void begin(void) {
    told = atoi(getenv("JVHOST_TOLD"));
    left = atol(getenv("JVHOST_REFUSED"));
}

__attribute__((destructor)) static void end(void) {
    if (left < 0 && write(told, "", 1) != 1)
        _exit(125);
}
