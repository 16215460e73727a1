/* Writes the header's versions, then the words of every refusal, a line each from 0 on. */
#include "renju.h"

#include <stdio.h>

int main(void) {
    unsigned refusal;
    printf("%s\n", RENJU_VERSION);
    printf("%d.%d.%d\n", RENJU_VERSION_MAJOR, RENJU_VERSION_MINOR, RENJU_VERSION_PATCH);
    printf("%u %d\n", (unsigned)renju_interface_2(), RENJU_INTERFACE);
    for (refusal = 0; refusal <= RENJU_REFUSED_ONE_SIDED + 1; refusal++) {
        printf("%s\n", renju_refusal_text(refusal));
    }
    return 0;
}
