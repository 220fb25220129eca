/* What the tests share: a fact that is not so is told and counted. */
#include <stdio.h>

static int wrong;

#define CHECK(fact)                                                   \
    do {                                                              \
        if (!(fact)) {                                                \
            printf("%s:%d: not so: %s\n", __FILE__, __LINE__, #fact); \
            wrong++;                                                  \
        }                                                             \
    } while (0)
