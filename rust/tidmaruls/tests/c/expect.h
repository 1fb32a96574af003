/* Ends a program with status 1 at the first thing that does not hold, and says which. */
#ifndef EXPECT_H
#define EXPECT_H

#include <stdio.h>

#define EXPECT(holds) \
    do { \
        if (!(holds)) { \
            fprintf(stderr, "%s:%d: not so: %s\n", __FILE__, __LINE__, #holds); \
            return 1; \
        } \
    } while (0)

#endif
