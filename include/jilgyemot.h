/* The C interface of Jilgyemot: link libjilgyemot.a. */
#ifndef JILGYEMOT_H
#define JILGYEMOT_H

#include <stddef.h>
#include <stdint.h>

#ifdef __cplusplus
extern "C" {
#endif

/*
 * Every call writes its answer as six numbers:
 *   accepted    0, length, files taken in, 0, 0, 0
 *   no region   1, 0, 0, 0, 0, 0
 *   refused     2, number, file, line, second file, second line
 * Numbers, files and lines are those of document 01. A text is any bytes. A
 * pointer may be null where its length is 0. The answer has room for six
 * numbers. Output, work and answer overlap neither each other nor what is read.
 */

/* The first number of an answer. */
enum jilgyemot_answer {
    JILGYEMOT_ACCEPTED = 0,
    JILGYEMOT_NO_REGION = 1,
    JILGYEMOT_REFUSED = 2
};

/* The second number of a refusal, in the order of document 01's table. */
enum jilgyemot_refusal {
    JILGYEMOT_INDEX_LINE = 1,            /* an index line is ill formed */
    JILGYEMOT_TOO_MANY_RECORDS = 2,      /* the index has over 64 lines */
    JILGYEMOT_PAST_CONTENTS = 3,         /* a file's part ends past the contents */
    JILGYEMOT_NAME_TWICE = 4,            /* a name comes twice in the index */
    JILGYEMOT_WIDE_BYTE = 5,             /* a text holds a byte 80 hex or above */
    JILGYEMOT_NAME_FORM = 6,             /* the host's name or the URL is ill formed */
    JILGYEMOT_LIST_FORM = 7,             /* the list lacks its last LF or has over 64 lines */
    JILGYEMOT_SIZES = 8,                 /* the limit is outside its range or a buffer short */
    JILGYEMOT_NESTED_REGION = 9,         /* a region is opened in a region */
    JILGYEMOT_FRAGMENT_MARKER = 10,      /* a fragment marker shares its line or is ill spelled */
    JILGYEMOT_UNCLOSED_REGION = 11,      /* a region is never closed */
    JILGYEMOT_PEER_WITHOUT_HEADING = 12, /* no heading of the host stands above a peer */
    JILGYEMOT_ON_CHAIN = 13,             /* a region names a file on its chain */
    JILGYEMOT_ABSENT = 14,               /* a file that is named is not in the index */
    JILGYEMOT_ALLOWANCE = 15,            /* the allowance is used up */
    JILGYEMOT_HEADING_LEVEL = 16,        /* a heading would be past level 6 */
    JILGYEMOT_TEXT_LIMIT = 17,           /* a text, or a scan's listing, is too long */
    JILGYEMOT_NO_TITLE = 18,             /* a member has no heading of level 1 */
    JILGYEMOT_SHARED_ANCHOR = 19         /* an earlier member has the same anchor */
};

/*
 * The least length of the work buffer of a call with so many index lines, list lines
 * (0 in a fill) and this limit. With constants it is a constant, so that a static array
 * can have that length; larger counts than those of the call do no harm.
 */
#define JILGYEMOT_WORK_SIZE(records, lines, limit) \
    (((size_t)(records) + (size_t)(lines) + (size_t)2) * (size_t)(limit))

/*
 * The marker scan of a text. Accepted: the output begins with the listing, and
 * its other bytes are unchanged. Refused, the output unchanged: 5 at the line
 * of the first byte 80 hex or above, or 17 at line 0 where the output is
 * shorter than the listing. "No region" is no answer of a scan.
 */
void jilgyemot_scan(const uint8_t *text, size_t text_length,
                    uint8_t *out, size_t out_length,
                    uint64_t answer[6]);

/*
 * Fills the regions of a host with the files that they name. The index has a
 * line for each file, with its LF: name, start and length of its part of the
 * contents, tabs between them; 0 to 64 lines. A name has 1 to 255 bytes of 20 to
 * 7E hex, a number 1 to 9 digits and no zero in front of others. The limit is 1
 * to 1,048,576: no text made on the way may be longer. The allowance is how many
 * files may be taken in, each counted as often as a region takes it in. The
 * output has at least `limit` bytes, and work at least (index lines + 2) times
 * `limit`, JILGYEMOT_WORK_SIZE(index lines, 0, limit); it may hold anything, and is
 * zero after every call.
 *
 * Accepted: 0, the text's length, how often a file was taken in, 0, 0, 0. The
 * output begins with the text, and its other bytes are unchanged. No region: 1,
 * 0, 0, 0, 0, 0; the host stays as it is. Refused: 2, the number, and its place:
 * the file's index line or 0 for the host, and the line in it, both counted from
 * 1, or 0 where there is none; then 0, 0. No region and a refusal leave the
 * output unchanged.
 *   1  index line ill formed           9   region opened in a region
 *   2  over 64 index lines             10  fragment marker sharing its line or
 *   3  part ends past the contents         ill spelled
 *   4  name twice                      11  region never closed
 *   5  byte 80 hex or above            12  peer with no own heading above
 *   6  host name not 1 to 255 bytes    13  names a file on the chain
 *      of 20 to 7E hex                 14  file not in the index
 *   8  limit outside its range, or     15  allowance used up
 *      a buffer short                  16  heading past level 6
 *                                      17  text longer than the limit
 * 1 to 4 stand at the index's line, with file 0; 5 at the byte's line, the host
 * first; 6 and 8 at 0, 0; 9 and 10 at the marker, 11 to 15 at the opener. 16
 * stands in the file named, and its line counts the lines that are put in. 17
 * stands in the text being filled, at the opener of its region, or at line 0
 * behind the last region.
 */
void jilgyemot_fill(const uint8_t *index, size_t index_length,
                    const uint8_t *contents, size_t contents_length,
                    const uint8_t *host_name, size_t host_name_length,
                    const uint8_t *host_text, size_t host_text_length,
                    uint64_t limit, uint32_t allowance,
                    uint8_t *out, size_t out_length,
                    uint8_t *work, size_t work_length,
                    uint64_t answer[6]);

/*
 * Assembles the files that a list names into one text, in the list's order. Index,
 * contents and limit are as for a fill. The list has a name a line, with its LF; 0
 * to 64 lines, and a name may come twice; an empty list gives one LF. The URL has 1
 * to 255 bytes of 20 to 7E hex: a link to a file that is not listed is sent there.
 * The output has at least `limit` bytes, and work at least (index lines + list lines
 * + 2) times `limit`, JILGYEMOT_WORK_SIZE(index lines, list lines, limit); it may hold
 * anything, and is zero after every call.
 *
 * Accepted: 0, the text's length, 0, 0, 0, 0. The output begins with the text, and
 * its other bytes are unchanged. Refused, the output unchanged: 2, the number, and
 * its place: the file's index line, or 0, and the line in it, both counted from 1,
 * or 0 where there is none; then the second place of 19, at all others 0, 0. "No
 * region" is no answer of an assembly.
 *   1  index line ill formed           7   list lacks its last LF, or has over
 *   2  over 64 index lines                 64 lines
 *   3  part ends past the contents     8   limit outside its range, or a buffer
 *   4  name twice                          short
 *   5  byte 80 hex or above            14  file not in the index
 *   6  URL not 1 to 255 bytes of       16  heading past level 6
 *      20 to 7E hex                    17  text longer than the limit
 *                                      18  no heading of level 1 in a member
 *                                      19  anchor also in an earlier member of
 *                                          another name
 * 1 to 4 stand at the index's line, with file 0; 5 at the byte's line; 6 to 8 at 0,
 * 0; 14 at the list's line, with file 0. 16 to 19 stand in the member, 17 and 18 at
 * line 0, and 17 for the last LF in the last member. The lines of 16 and 19 count
 * the member's lines without its hand-written contents. The second place of 19 is
 * the earlier member's.
 */
void jilgyemot_assemble(const uint8_t *index, size_t index_length,
                        const uint8_t *contents, size_t contents_length,
                        const uint8_t *list, size_t list_length,
                        const uint8_t *url, size_t url_length,
                        uint64_t limit,
                        uint8_t *out, size_t out_length,
                        uint8_t *work, size_t work_length,
                        uint64_t answer[6]);

/*
 * Makes a book of the files that a list names: fills the regions of each as a fill
 * does, and assembles what comes of it as an assembly does. Index, contents, list,
 * URL and buffers are as for an assembly, limit and allowance as for a fill; the
 * allowance holds for the whole list. A file with no region is kept as it is, and
 * may be longer than the limit.
 *
 * Accepted: 0, the text's length, how often a file was taken in, 0, 0, 0. The output
 * begins with the text, and its other bytes are unchanged. Refused, the output
 * unchanged: 2, the number, and its place: the file's index line, or 0, and the line
 * in it, both counted from 1, or 0 where there is none; then the second place of 19,
 * at all others 0, 0. "No region" is no answer of a book.
 *   1  index line ill formed           9   region opened in a region
 *   2  over 64 index lines             10  fragment marker sharing its line or
 *   3  part ends past the contents         ill spelled
 *   4  name twice                      11  region never closed
 *   5  byte 80 hex or above            12  peer with no own heading above
 *   6  URL not 1 to 255 bytes of       13  names a file on the chain
 *      20 to 7E hex                    14  file not in the index
 *   7  list lacks its last LF, or      15  allowance used up
 *      has over 64 lines               16  heading past level 6
 *   8  limit outside its range, or     17  text longer than the limit
 *      a buffer short                  18  no heading of level 1 in a member
 *                                      19  anchor also in an earlier member of
 *                                          another name
 * The places are those of a fill and of an assembly, and a member is the file of its
 * index line. 14 stands at the list's line, with file 0, where the list names the
 * file. All members are filled before any is assembled: 16 and 17 of a fill come
 * before those of the assembly, whose lines count those of the filled member without
 * its hand-written contents.
 */
void jilgyemot_book(const uint8_t *index, size_t index_length,
                    const uint8_t *contents, size_t contents_length,
                    const uint8_t *list, size_t list_length,
                    const uint8_t *url, size_t url_length,
                    uint64_t limit, uint32_t allowance,
                    uint8_t *out, size_t out_length,
                    uint8_t *work, size_t work_length,
                    uint64_t answer[6]);

#ifdef __cplusplus
}
#endif

#endif
