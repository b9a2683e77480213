/* Makes a book of notes from C and prints it; then one that takes in too many files. */
#include <inttypes.h>
#include <stdio.h>
#include <string.h>

#include "jilgyemot.h"

#define LIMIT 512
#define FILES 4
#define MEMBERS 2

/* Gauge and pump, which take in the rules for crews, and the pump its limit too. */
static const char *const index_text = "docs/gauge.md\t0\t74\n"
                                      "docs/pump.md\t74\t105\n"
                                      "docs/limit.md\t179\t49\n"
                                      "docs/crews.md\t228\t44\n";
static const char *const contents = "# Gauge\n\nRead it at the weir.\n\n"
                                    "<!--[fragment:docs/crews.md]-->\n<!--[/]-->\n"
                                    "# Pump\n\n## Limit\n\n"
                                    "<!--[fragment:docs/limit.md]-->\n<!--[/]-->\n\n"
                                    "<!--[fragment:docs/crews.md]-->\n<!--[/]-->\n"
                                    "# By day\n\n6 m, as read at [the gauge](gauge.md).\n"
                                    "Two at a time, by [the rules](../rules.md).\n";

/* Prints the book and how many files it took in, or the refusal. */
static void make_book(uint32_t allowance) {
    const char *list = "docs/gauge.md\ndocs/pump.md\n";
    const char *url = "https://river.example/notes";
    static uint8_t out[LIMIT];
    static uint8_t work[JILGYEMOT_WORK_SIZE(FILES, MEMBERS, LIMIT)];
    uint64_t answer[6];
    jilgyemot_book((const uint8_t *)index_text, strlen(index_text),
                   (const uint8_t *)contents, strlen(contents),
                   (const uint8_t *)list, strlen(list),
                   (const uint8_t *)url, strlen(url),
                   LIMIT, allowance, out, sizeof out, work, sizeof work, answer);
    if (answer[0] == JILGYEMOT_REFUSED) {
        printf("refused %" PRIu64 ", file %" PRIu64 ", line %" PRIu64 "\n",
               answer[1], answer[2], answer[3]);
        return;
    }
    fwrite(out, 1, (size_t)answer[1], stdout);
    printf("%" PRIu64 " files taken in\n", answer[2]);
}

int main(void) {
    make_book(3);
    make_book(2);
    return 0;
}
