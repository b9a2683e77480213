/*
 * Makes the book of the station in the folder given, and prints it. Every buffer is
 * static and has its size from the numbers below, as in firmware. The folder's file
 * `notes` has the names of its notes, one a line, and `list` those of the members.
 */
#include <inttypes.h>
#include <stdio.h>
#include <string.h>

#include "jilgyemot.h"

#define NOTES 24
#define MEMBERS 16
#define LIMIT 65536
#define ALLOWANCE 256
#define URL "https://github.com/hydro/weir"

#define NAME_SIZE 256
#define RECORD_SIZE (NAME_SIZE + 20)
#define PATH_SIZE 1024

/* A text in a buffer of a fixed size. */
struct text {
    uint8_t *bytes;
    size_t size;
    size_t length;
};

static uint8_t names_bytes[NOTES * NAME_SIZE];
static uint8_t index_bytes[NOTES * RECORD_SIZE];
static uint8_t contents_bytes[2 * LIMIT];
static uint8_t list_bytes[MEMBERS * NAME_SIZE];
static uint8_t out[LIMIT];
static uint8_t work[JILGYEMOT_WORK_SIZE(NOTES, MEMBERS, LIMIT)];

static struct text names = {names_bytes, sizeof names_bytes, 0};
static struct text index_text = {index_bytes, sizeof index_bytes, 0};
static struct text contents = {contents_bytes, sizeof contents_bytes, 0};
static struct text list = {list_bytes, sizeof list_bytes, 0};

static int fail(const char *name, const char *why) {
    fprintf(stderr, "%s: %s\n", name, why);
    return -1;
}

/* Puts a file of the folder behind a text: 0, or -1 if it cannot be read or is too long. */
static int append_file(struct text *to, const char *folder, const char *name) {
    char path[PATH_SIZE];
    int length = snprintf(path, sizeof path, "%s/%s", folder, name);
    if (length < 0 || (size_t)length >= sizeof path) {
        return fail(name, "the path is too long");
    }
    FILE *file = fopen(path, "rb");
    if (file == NULL) {
        return fail(path, "not opened");
    }
    to->length += fread(to->bytes + to->length, 1, to->size - to->length, file);
    int whole = fgetc(file) == EOF && !ferror(file);
    fclose(file);
    return whole ? 0 : fail(path, "not read to its end");
}

/* Puts a record behind the index: 0, or -1 if there is no room. */
static int append_record(const char *name, size_t start, size_t length) {
    char *end = (char *)index_text.bytes + index_text.length;
    size_t room = index_text.size - index_text.length;
    int written = snprintf(end, room, "%s\t%zu\t%zu\n", name, start, length);
    if (written < 0 || (size_t)written >= room) {
        return fail(name, "the index has no room");
    }
    index_text.length += (size_t)written;
    return 0;
}

static int add_note(const char *folder, const char *name) {
    size_t start = contents.length;
    if (append_file(&contents, folder, name) != 0) {
        return -1;
    }
    return append_record(name, start, contents.length - start);
}

/* Reads each note that `names` has a line for. */
static int add_notes(const char *folder) {
    char name[NAME_SIZE];
    size_t length = 0;
    for (size_t at = 0; at < names.length; at++) {
        if (names.bytes[at] != '\n') {
            if (length + 1 == sizeof name) {
                return fail("notes", "a name is too long");
            }
            name[length++] = (char)names.bytes[at];
            continue;
        }
        name[length] = '\0';
        length = 0;
        if (add_note(folder, name) != 0) {
            return -1;
        }
    }
    return length == 0 ? 0 : fail("notes", "the last line has no end");
}

static int read_station(const char *folder) {
    if (append_file(&names, folder, "notes") != 0 || append_file(&list, folder, "list") != 0) {
        return -1;
    }
    return add_notes(folder);
}

/* Prints the book, or the refusal: 0 or 1. */
static int make_book(void) {
    uint64_t answer[6];
    jilgyemot_book(index_text.bytes, index_text.length,
                   contents.bytes, contents.length,
                   list.bytes, list.length,
                   (const uint8_t *)URL, strlen(URL),
                   LIMIT, ALLOWANCE, out, sizeof out, work, sizeof work, answer);
    if (answer[0] == JILGYEMOT_REFUSED) {
        fprintf(stderr, "refused %" PRIu64 ", file %" PRIu64 ", line %" PRIu64
                "; file %" PRIu64 ", line %" PRIu64 "\n",
                answer[1], answer[2], answer[3], answer[4], answer[5]);
        return 1;
    }
    size_t length = (size_t)answer[1];
    return fwrite(out, 1, length, stdout) == length && fflush(stdout) == 0 ? 0 : 1;
}

int main(int count, char **words) {
    if (count != 2) {
        fprintf(stderr, "usage: station FOLDER\n");
        return 2;
    }
    return read_station(words[1]) == 0 ? make_book() : 2;
}
