/* Fills a host with one file from C and prints it. */
#include <inttypes.h>
#include <stdio.h>
#include <string.h>

#include "jilgyemot.h"

#define LIMIT 256
#define FILES 1

int main(void) {
    const char *index = "docs/steps.md\t0\t54\n";
    const char *contents = "# Steps\n\nClose the sluice, then [read](../host.md#g).\n";
    const char *name = "host.md";
    const char *text = "# Gauge\n\n<!--[fragment:docs/steps.md]-->\n<!--[/]-->\n";
    static uint8_t out[LIMIT];
    static uint8_t work[JILGYEMOT_WORK_SIZE(FILES, 0, LIMIT)];
    uint64_t answer[6];
    jilgyemot_fill((const uint8_t *)index, strlen(index),
                   (const uint8_t *)contents, strlen(contents),
                   (const uint8_t *)name, strlen(name),
                   (const uint8_t *)text, strlen(text),
                   LIMIT, FILES, out, sizeof out, work, sizeof work, answer);
    if (answer[0] == JILGYEMOT_REFUSED) {
        printf("refused %" PRIu64 ", file %" PRIu64 ", line %" PRIu64 "\n",
               answer[1], answer[2], answer[3]);
        return 1;
    }
    if (answer[0] == JILGYEMOT_NO_REGION) {
        fputs(text, stdout);
        return 0;
    }
    fwrite(out, 1, (size_t)answer[1], stdout);
    return 0;
}
