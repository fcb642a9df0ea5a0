/* The words of the programs `wac` and `wacx` over texts in memory, for callers in C and in what calls C.
 *
 * Link libwac.a, which needs the C library alone; it takes memory from malloc, realloc and free, and gives all of it
 * back before a call returns. Nothing is kept between calls, so any thread may call, and several at once. Don't call
 * from a signal handler, nor after fork in the child of a process with threads.
 */
#ifndef WAC_H
#define WAC_H

#include <stddef.h>
#include <stdint.h>

#ifdef __cplusplus
extern "C" {
#endif

/* What is done with a text. README.md says what each word of `wac` writes. */
enum wac_word {
    WAC_TOKENS = 0,
    WAC_FMT = 1,
    WAC_JSON = 2,
    WAC_RESOLVE = 3,
    WAC_PACKAGES = 4,
    WAC_CHECK = 5,
    /* Writes the document in the one layout with every comment in its place, as `wacx fmt` does: four blanks for a
     * level, and lines that end in LF. */
    WAC_TIDY = 6,
    /* Writes the first error as a line of JSON, as `wacx check --output json` does of a file with the name <text>, or
     * nothing where there is none. The program adds to the help what was probably meant. Bytes that are no text have
     * such an error too. */
    WAC_ERRORS = 7
};

/* How a call ended. */
enum wac_status {
    /* What there is to write is in `out`. */
    WAC_WELL = 0,
    /* The text is rejected, and `message` says why. Only WAC_CHECK of a document in another layout has no place. */
    WAC_REJECTED = 1,
    /* No word has the number. Nothing was written. */
    WAC_UNKNOWN = 2,
    /* The text is not UTF-8. */
    WAC_NOT_UTF8 = 3,
    WAC_OUT_OF_MEMORY = 4,
    /* The bracket at the place is nested deeper than the limit. Nothing else was done with the text. */
    WAC_NESTED_TOO_DEEP = 5,
    /* The packages that were handed over have no frames, or one of them is no package: the place is one in them. */
    WAC_BAD_PACKAGE = 6
};

typedef struct {
    /* One of wac_status. */
    uint32_t status;
    /* 1 where offset and length are the place that is at fault, in bytes of the text; else 0, and so are they. */
    uint8_t has_place;
    size_t offset;
    size_t length;
    /* How many bytes of `out` were written: as many as fit, in whole characters, with no byte 0 after them. */
    size_t written;
    /* How many bytes there are to write. Where `out` has fewer, a call with so much room writes them all. */
    size_t needed;
    /* The same of `message`. With WAC_WELL there is none, and with every other status but WAC_UNKNOWN there is one. */
    size_t message_written;
    size_t message_needed;
} wac_answer;

/* Puts into `out` what a word makes of a text, or into `message` why it makes nothing of it, and says in *answer which.
 *
 * Brackets may nest as deep as the limit, a brace counting as two levels and each other bracket as one. A limit of 0
 * stands for 256, for which a thread with a stack of 512 KB suffices. Types that name one another in a chain, as in
 * type b = list<a>; type c = list<b>; take memory and no stack where they are compared (bench/README.md).
 *
 * The text, `out`, `message` and *answer don't overlap. A pointer may be null where its length is 0, and no other is;
 * none is used after the call. Bytes of `out` and `message` that aren't written stay as they are, and what *answer holds
 * before the call is not read. */
void wac_run(uint32_t word, size_t limit, const uint8_t *text, size_t text_length, uint8_t *out, size_t out_room,
             uint8_t *message, size_t message_room, wac_answer *answer);

/* Puts into `out` the graph that a document describes by the component model's rules, as one JSON object on a line
 * (docs/GRAPH.md), or into `message` why there is none; else as wac_run.
 *
 * The document may mention the packages that are handed over, in any order. They are frames, one after another: a length
 * of eight bytes, lowest first, and then so many bytes. A package is a frame with a document that declares it
 * (docs/PACKAGES.md); or it is two, one with its name, as a:b or a:b@1.0.0, and after it one with its component, which
 * begins with the bytes 0, 'a', 's' and 'm'. Where no package is, packages_length is 0. */
void wac_graph(size_t limit, const uint8_t *text, size_t text_length, const uint8_t *packages, size_t packages_length,
               uint8_t *out, size_t out_room, uint8_t *message, size_t message_room, wac_answer *answer);

#ifdef __cplusplus
}
#endif

#endif
