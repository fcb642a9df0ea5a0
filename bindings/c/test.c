/* Tests of include/wac.h: rows of what calls write, room of each size, packages, null, nesting, and threads. Ends with
 * status 0 where all of them hold. */
#define _POSIX_C_SOURCE 200809L
#include "wac.h"

#include <pthread.h>
#include <stdio.h>
#include <stdlib.h>
#include <string.h>

#define ROOM 4096
/* What bytes of a room are that no call wrote. */
#define UNTOUCHED '#'
#define FIRST "package a:b; let x = y; export x.z; // c"
#define FIRST_PRINTED "package a:b;\n\nlet x = y;\n\nexport x.z;\n"
#define BAD "package a:b; let x y;"
#define WHY "expected `=`, found identifier"

static int failed = 0;

static void fail(const char *test, size_t row) {
    fprintf(stderr, "%s %zu: not as wanted\n", test, row);
    failed = 1;
}

typedef struct {
    uint32_t word;
    const char *text;
    /* How much room there is, what is then in it, and how many bytes there are to write. */
    size_t room;
    const char *written;
    size_t needed;
    /* The same of the message. */
    size_t message_room;
    const char *message;
    size_t message_needed;
    uint32_t status;
    /* The place at fault, with a length of 0 where there is none. */
    size_t offset, length;
} row;

static const row rows[] = {
    {WAC_TOKENS, "", 100, "", 0, 9, "", 0, WAC_WELL, 0, 0},
    {WAC_TOKENS, "x:string", 100, "0+8 package name\n", 17, 9, "", 0, WAC_WELL, 0, 0},
    {WAC_FMT, FIRST, 100, FIRST_PRINTED, 38, 9, "", 0, WAC_WELL, 0, 0},
    {WAC_FMT, FIRST, 38, FIRST_PRINTED, 38, 9, "", 0, WAC_WELL, 0, 0},
    {WAC_FMT, FIRST, 12, "package a:b;", 38, 9, "", 0, WAC_WELL, 0, 0},
    {WAC_FMT, FIRST, 0, "", 38, 0, "", 0, WAC_WELL, 0, 0},
    {WAC_TIDY, "package a:b; // c", 100, "package a:b; // c\n", 18, 9, "", 0, WAC_WELL, 0, 0},
    {WAC_RESOLVE, "package a:b; import y: func();", 99, "0 import y: function [y]\n", 25, 9, "", 0, WAC_WELL, 0, 0},
    {WAC_PACKAGES, "package a:b; let x = new c:d {};", 100, "c:d\n", 4, 9, "", 0, WAC_WELL, 0, 0},
    {WAC_CHECK, FIRST_PRINTED, 100, "", 0, 9, "", 0, WAC_WELL, 0, 0},
    {WAC_ERRORS, "package a:b; import y: func();", 0, "", 0, 9, "", 0, WAC_WELL, 0, 0},
    {WAC_ERRORS, "\xff", 7, "{\"file\"", 231, 9, "", 0, WAC_WELL, 0, 0},
    {WAC_CHECK, FIRST, 100, "", 0, 99, "not formatted", 13, WAC_REJECTED, 0, 0},
    {WAC_FMT, BAD, 100, "", 0, 99, WHY, 30, WAC_REJECTED, 19, 1},
    {WAC_TIDY, BAD, 0, "", 0, 8, "expected", 30, WAC_REJECTED, 19, 1},
    {WAC_JSON, "\xff", 100, "", 0, 99, "input is not UTF-8", 18, WAC_NOT_UTF8, 0, 0},
    /* A character of two bytes is written whole or not at all. */
    {WAC_FMT, "/// \xc3\xa9\npackage a:b;", 6, "/// \xc3\xa9", 21, 9, "", 0, WAC_WELL, 0, 0},
    {WAC_FMT, "/// \xc3\xa9\npackage a:b;", 5, "/// ", 21, 9, "", 0, WAC_WELL, 0, 0},
    {WAC_ERRORS + 1, FIRST, 100, "", 0, 9, "", 0, WAC_UNKNOWN, 0, 0},
    {UINT32_MAX, FIRST, 100, "", 0, 9, "", 0, WAC_UNKNOWN, 0, 0},
};

/* Whether the bytes of a room are those of a text, and untouched after it. */
static int holds(const uint8_t *room, const char *text) {
    size_t at = strlen(text);
    if (memcmp(room, text, at) != 0)
        return 0;
    for (; at < ROOM; at++)
        if (room[at] != UNTOUCHED)
            return 0;
    return 1;
}

/* Whether a call does what its row says, over an answer that has other bytes before. */
static int is_met(const row *want) {
    uint8_t out[ROOM], message[ROOM];
    wac_answer answer;
    memset(out, UNTOUCHED, sizeof out);
    memset(message, UNTOUCHED, sizeof message);
    memset(&answer, 0xa5, sizeof answer);
    wac_run(want->word, 0, (const uint8_t *)want->text, strlen(want->text), out, want->room, message,
            want->message_room, &answer);
    return answer.status == want->status && answer.has_place == (want->length != 0) && answer.offset == want->offset
        && answer.length == want->length && answer.written == strlen(want->written) && answer.needed == want->needed
        && answer.message_written == strlen(want->message) && answer.message_needed == want->message_needed
        && holds(out, want->written) && holds(message, want->message);
}

static void test_rows(void) {
    for (size_t at = 0; at < sizeof rows / sizeof *rows; at++)
        if (!is_met(&rows[at]))
            fail("row", at);
}

#define APP "package a:b; let x = new c:d { ... };"
#define PACKAGE "package c:d; world w { import y: func(); }"

/* What a graph of APP comes to, with the frame of a text of which so many bytes are handed over. */
static wac_answer graph(const char *package, size_t given, uint8_t *out, uint8_t *message) {
    uint8_t frame[ROOM] = {0};
    wac_answer answer;
    frame[0] = (uint8_t)strlen(package);
    memcpy(frame + 8, package, strlen(package));
    memset(out, UNTOUCHED, ROOM);
    memset(message, UNTOUCHED, ROOM);
    wac_graph(0, (const uint8_t *)APP, strlen(APP), frame, given, out, ROOM, message, ROOM, &answer);
    return answer;
}

static void test_graphs(void) {
    static const struct {
        const char *package;
        size_t given;
        uint32_t status;
        size_t offset, length;
        const char *text;
    } want[] = {
        {PACKAGE, 8 + sizeof PACKAGE - 1, WAC_WELL, 0, 0,
         "{\"nodes\":[{\"id\":0,\"kind\":\"instantiation\",\"name\":\"x\",\"package\":\"c:d\",\"item\":\"instance\","
         "\"span\":{\"offset\":17,\"length\":1},\"import\":null,\"source\":null,\"arguments\":[]}],\"exports\":[],"
         "\"imports\":[{\"name\":\"y\",\"kind\":\"function\",\"by\":[0]}]}\n"},
        {PACKAGE, 0, WAC_REJECTED, 25, 3, "unknown package `c:d`"},
        {PACKAGE, 9, WAC_BAD_PACKAGE, 0, 9, "the frame of a package is cut"},
        {"package c", 17, WAC_BAD_PACKAGE, 16, 1, "expected package name, found identifier"},
    };
    for (size_t at = 0; at < sizeof want / sizeof *want; at++) {
        uint8_t out[ROOM], message[ROOM];
        wac_answer answer = graph(want[at].package, want[at].given, out, message);
        int well = want[at].status == WAC_WELL;
        if (answer.status != want[at].status || answer.offset != want[at].offset || answer.length != want[at].length
            || !holds(well ? out : message, want[at].text) || !holds(well ? message : out, ""))
            fail("graph", at);
    }
}

/* The name of a package and its component, which imports a function y and exports it as f: a type section with func(),
 * an import section and an export section. */
static const uint8_t component[] = {
    3, 0, 0, 0, 0, 0, 0, 0, 'c', ':', 'd',
    32, 0, 0, 0, 0, 0, 0, 0, 0, 'a', 's', 'm', 13, 0, 1, 0,
    7, 5, 1, 0x40, 0, 1, 0, 10, 6, 1, 0, 1, 'y', 1, 0, 11, 7, 1, 0, 1, 'f', 1, 0, 0,
};

/* What is handed over of it, from an offset on and without so many bytes at its end. */
static void test_components(void) {
    static const struct { size_t from, cut; uint32_t status; size_t offset, length; } want[] = {
        {0, 0, WAC_WELL, 0, 0},
        {11, 0, WAC_BAD_PACKAGE, 8, 32},
        {0, 1, WAC_BAD_PACKAGE, 11, 39},
    };
    for (size_t at = 0; at < sizeof want / sizeof *want; at++) {
        uint8_t out[ROOM], message[ROOM];
        wac_answer answer;
        wac_graph(0, (const uint8_t *)APP, strlen(APP), component + want[at].from,
                  sizeof component - want[at].from - want[at].cut, out, ROOM, message, ROOM, &answer);
        if (answer.status != want[at].status || answer.offset != want[at].offset || answer.length != want[at].length)
            fail("component", at);
    }
}

/* A pointer may be null where its length is 0: of the text, of the packages and of both rooms. */
static void test_null(void) {
    static const struct { const char *text; int is_graph; uint32_t status; size_t offset, length; } want[] = {
        {NULL, 0, WAC_REJECTED, 0, 1},
        {FIRST_PRINTED, 0, WAC_WELL, 0, 0},
        {NULL, 1, WAC_REJECTED, 0, 1},
        {APP, 1, WAC_REJECTED, 25, 3},
        {"package a:b;", 1, WAC_WELL, 0, 0},
    };
    for (size_t at = 0; at < sizeof want / sizeof *want; at++) {
        wac_answer answer;
        const uint8_t *text = (const uint8_t *)want[at].text;
        size_t length = want[at].text ? strlen(want[at].text) : 0;
        if (want[at].is_graph)
            wac_graph(0, text, length, NULL, 0, NULL, 0, NULL, 0, &answer);
        else
            wac_run(WAC_FMT, 0, text, length, NULL, 0, NULL, 0, &answer);
        if (answer.status != want[at].status || answer.offset != want[at].offset || answer.length != want[at].length
            || answer.written != 0 || (answer.status == WAC_WELL) != (answer.message_needed == 0))
            fail("null", at);
    }
}

/* Makes a text whose parts nest so deep, after brackets that don't count, in memory that the caller frees. */
static char *nested(const char *head, const char *before, const char *within, const char *after, size_t depth) {
    char *text = malloc(strlen(head) + depth * (strlen(before) + strlen(after)) + strlen(within) + 2);
    char *end = stpcpy(text, head);
    for (size_t at = 0; at < depth; at++)
        end = stpcpy(end, before);
    end = stpcpy(end, within);
    for (size_t at = 0; at < depth; at++)
        end = stpcpy(end, after);
    strcpy(end, ";");
    return text;
}

/* How a call ends that is given such a text, and where the bracket at fault is. */
static wac_answer run_nested(size_t depth, size_t limit) {
    uint8_t none[1];
    wac_answer answer;
    char *text = nested("package a:b; // ((\nlet x = ", "(", "y", ")", depth);
    wac_run(WAC_FMT, limit, (uint8_t *)text, strlen(text), none, 0, none, 0, &answer);
    free(text);
    return answer;
}

static void test_nesting(void) {
    static const struct { size_t depth, limit; uint32_t status; size_t offset; } want[] = {
        {256, 0, WAC_WELL, 0},   {257, 0, WAC_NESTED_TOO_DEEP, 27 + 256}, {2, 2, WAC_WELL, 0},
        {3, 2, WAC_NESTED_TOO_DEEP, 27 + 2}, {300, 300, WAC_WELL, 0},
        {100000, 300, WAC_NESTED_TOO_DEEP, 27 + 300},
    };
    for (size_t at = 0; at < sizeof want / sizeof *want; at++) {
        wac_answer answer = run_nested(want[at].depth, want[at].limit);
        if (answer.status != want[at].status || answer.offset != want[at].offset)
            fail("nesting", at);
    }
}

/* What takes the most stack at the usual limit: each kind of brackets, as deep as they may be. */
static const char *const deepest[][5] = {
    {"package a:b; let x = ", "new c:d { e: ", "y", " }"},
    {"package a:b; let x = ", "(", "y", ")"},
    {"package a:b; type x = ", "result<_, ", "u8", ">"},
    {"package a:b; type x = ", "list<", "u8", ">"},
    {"package a:b; import f: func(a: ", "tuple<u8, ", "u8", ">"},
};

/* How many types a chain has. */
#define LINKS 20000
#define LAST (LINKS - 1)

/* Appends types that name one another in a chain, each with a name that begins with a letter. */
static char *chain(char *end, char letter, const char *first) {
    end += sprintf(end, "type %c0 = %s; ", letter, first);
    for (int at = 1; at < LINKS; at++)
        end += sprintf(end, "type %c%d = list<%c%d>; ", letter, at, letter, at - 1);
    return end;
}

/* Appends a frame with a world that has a chain of types, and a function of the last. */
static char *chain_frame(char *end, const char *head, const char *first, const char *tail) {
    char *start = end + 8;
    end = chain(stpcpy(start, head), 't', first);
    end += sprintf(end, "%s: func(a: t%d); }", tail, LAST);
    for (int at = 0; at < 8; at++)
        start[at - 8] = (char)((size_t)(end - start) >> (8 * at));
    return end;
}

/* Compares two chains of packages by the component model's rules. They may differ at their far end. */
static uint32_t run_chains(const char *expected) {
    static const char text[] = "package a:b; let x = new c:d { ... }; let y = new e:f { g: x.f, ... };";
    uint8_t none[1];
    wac_answer answer;
    char *packages = malloc(LINKS * 64 + 1000);
    char *end = chain_frame(packages, "package c:d; world w { ", "u8", "export f");
    end = chain_frame(end, "package e:f; world w { ", expected, "import g");
    wac_graph(0, (const uint8_t *)text, sizeof text - 1, (uint8_t *)packages, (size_t)(end - packages), none, 0, none, 0,
              &answer);
    free(packages);
    return answer.status;
}

/* Compares a chain of a text with one of its target. */
static uint32_t run_target(uint32_t word, const char *first) {
    uint8_t none[1];
    wac_answer answer;
    char *text = malloc(LINKS * 64 + 1000);
    char *end = chain(stpcpy(text, "package a:b targets a:b/w; world w { "), 'a', "u8");
    end += sprintf(end, "import x: func(y: a%d); } ", LAST);
    end = chain(end, 'b', first);
    end += sprintf(end, "import x: func(y: b%d);", LAST);
    wac_run(word, 0, (const uint8_t *)text, (size_t)(end - text), none, 0, none, 0, &answer);
    free(text);
    return answer.status;
}

static void *run_long(void *status) {
    if (run_chains("u8") != WAC_WELL || run_chains("char") != WAC_REJECTED || run_target(WAC_RESOLVE, "u8") != WAC_WELL
        || run_target(WAC_RESOLVE, "u16") != WAC_REJECTED || run_target(WAC_ERRORS, "u8") != WAC_WELL)
        *(int *)status = 1;
    return NULL;
}

/* Makes instances that are arguments of one another, as deep as the usual limit allows. */
static uint32_t run_instances(void) {
    static const char package[] = "package c:d; world w { import e: func(); export f: func(); }";
    uint8_t frame[sizeof package + 7] = {sizeof package - 1}, none[1];
    wac_answer answer;
    memcpy(frame + 8, package, sizeof package - 1);
    char *text = nested("package a:b; import y: func(); let x = ", "new c:d { e: ", "y", " }.f", 128);
    wac_graph(0, (uint8_t *)text, strlen(text), frame, sizeof frame, none, 0, none, 0, &answer);
    free(text);
    return answer.status;
}

static void *run_deep(void *status) {
    if (run_instances() != WAC_WELL)
        *(int *)status = 1;
    uint8_t out[1], message[1];
    wac_answer answer;
    for (size_t at = 0; at < sizeof deepest / sizeof *deepest; at++) {
        char *text = nested(deepest[at][0], deepest[at][1], deepest[at][2], deepest[at][3], at ? 250 : 128);
        for (uint32_t word = WAC_TOKENS; word <= WAC_ERRORS; word++) {
            wac_run(word, 0, (uint8_t *)text, strlen(text), out, 0, message, 0, &answer);
            if (answer.status > WAC_REJECTED)
                *(int *)status = 1;
        }
        wac_graph(0, (uint8_t *)text, strlen(text), out, 0, out + 1, 0, message, 0, &answer);
        if (answer.status > WAC_REJECTED)
            *(int *)status = 1;
        free(text);
    }
    return NULL;
}

/* Threads with a stack of 512 KB, several at once, the first of them with long chains. */
static void test_threads(void) {
    pthread_t threads[5];
    pthread_attr_t attributes;
    int statuses[5] = {0};
    pthread_attr_init(&attributes);
    pthread_attr_setstacksize(&attributes, 512 << 10);
    for (int at = 0; at < 5; at++)
        if (pthread_create(&threads[at], &attributes, at ? run_deep : run_long, &statuses[at]) != 0)
            exit(2);
    for (int at = 0; at < 5; at++) {
        pthread_join(threads[at], NULL);
        if (statuses[at] != 0)
            fail("thread", (size_t)at);
    }
    pthread_attr_destroy(&attributes);
}

int main(void) {
    test_rows();
    test_graphs();
    test_components();
    test_null();
    test_nesting();
    test_threads();
    return failed;
}
