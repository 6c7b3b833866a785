/* example.h: what the examples have in common. */

#ifndef EXAMPLE_H
#define EXAMPLE_H

#include <inttypes.h>
#include <stdio.h>
#include <stdlib.h>

#include "giophantus.h"

/* Ends the program on a refusal; a real program would act on the number (see giophantus.h). */
static inline void accepted(const char *step, uint32_t number) {
    if (number != GIOPHANTUS_OK) {
        fprintf(stderr, "%s: refusal %" PRIu32 "\n", step, number);
        exit((int)number);
    }
}

#endif
