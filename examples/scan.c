/* Scans a note from C and prints its listing. */
#include <inttypes.h>
#include <stdio.h>
#include <string.h>

#include "jilgyemot.h"

int main(void) {
    const char *note = "Limit <!--[const:MAX]-->6 m<!--[/]-->.\n";
    uint8_t out[256];
    uint64_t answer[6];
    jilgyemot_scan((const uint8_t *)note, strlen(note), out, sizeof out, answer);
    if (answer[0] != JILGYEMOT_ACCEPTED) {
        printf("refused %" PRIu64 ", line %" PRIu64 "\n", answer[1], answer[3]);
        return 1;
    }
    fwrite(out, 1, (size_t)answer[1], stdout);
    return 0;
}
