/* Assembles notes from C and prints the text; then a list that is refused. */
#include <inttypes.h>
#include <stdio.h>
#include <string.h>

#include "jilgyemot.h"

#define LIMIT 256
#define FILES 3
#define MEMBERS 2

/* Gauge, pump, and a note with a heading that the gauge's has too. */
static const char *const index_text = "docs/gauge.md\t0\t52\n"
                                      "docs/pump.md\t52\t51\n"
                                      "docs/old.md\t103\t20\n";
static const char *const contents = "# Gauge\n\n# Datum\n\nRead it with [the pump](pump.md).\n"
                                    "# Pump\n\nBy [the rules](../rules.md#pumps), at 6 m.\n"
                                    "# Old gauge\n\n# Datum";

/* Prints the text that a list of two names gives, or the refusal. */
static void assemble(const char *list) {
    const char *url = "https://river.example/notes";
    static uint8_t out[LIMIT];
    static uint8_t work[JILGYEMOT_WORK_SIZE(FILES, MEMBERS, LIMIT)];
    uint64_t answer[6];
    jilgyemot_assemble((const uint8_t *)index_text, strlen(index_text),
                       (const uint8_t *)contents, strlen(contents),
                       (const uint8_t *)list, strlen(list),
                       (const uint8_t *)url, strlen(url),
                       LIMIT, out, sizeof out, work, sizeof work, answer);
    if (answer[0] == JILGYEMOT_REFUSED) {
        printf("refused %" PRIu64 ", file %" PRIu64 ", line %" PRIu64
               "; file %" PRIu64 ", line %" PRIu64 "\n",
               answer[1], answer[2], answer[3], answer[4], answer[5]);
        return;
    }
    fwrite(out, 1, (size_t)answer[1], stdout);
}

int main(void) {
    assemble("docs/gauge.md\ndocs/pump.md\n");
    assemble("docs/gauge.md\ndocs/old.md\n");
    return 0;
}
