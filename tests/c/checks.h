/*
 * What the C programs share: counted checks, and the moves of session K5.
 */
#ifndef CHECKS_H
#define CHECKS_H

#include "humdayeg.h"

#include <stdio.h>

static unsigned passed, failed;

static void check(int ok, const char *what) {
    if (ok) {
        passed++;
    } else {
        failed++;
        printf("FAILED %s\n", what);
    }
}

/* Both processors lock mutex 1, 1 gets it, 2 goes to L3; 1 unlocks through U1, H2, H5 and
   leaves at H6; 2 goes L3 to L10. */
static const uint8_t K5[] = {1, 1, 1, 2, 1, 1, 1, 0, 0, 2, 0, 0, 1, 3, 1, 1, 0, 0, 1, 0, 0, 1, 0, 0,
                             1, 0, 0, 2, 0, 0, 2, 0, 0, 2, 0, 0, 2, 0, 0, 2, 0, 0, 2, 0, 0, 2, 0, 0};

#endif
