/* Calls the library for C with texts that were changed at random, each with every word and for its graph, in a thread
 * with a stack of 512 KB. bench/fuzz compiles and runs it:
 *
 *     fuzz CORPUS COMPONENTS COUNT SEED SECONDS LAST SAMPLE EVERY
 *
 * CORPUS, COMPONENTS and SAMPLE are files of frames: a length of four bytes, lowest first, and so many bytes. Up to COUNT
 * texts are tried, for at most SECONDS. LAST always has the frames of the text that is tried and of the packages that go with it,
 * so that they are known after a crash. SAMPLE gets of one text in EVERY its frame, that of the packages, five numbers of
 * four bytes (the word, the status, whether there is a place, its offset and its length), and frames of what was written
 * and of the message. It ends with status 1 where a call doesn't keep a promise of include/wac.h, and with a line of
 * figures.
 */
#define _GNU_SOURCE
#include "wac.h"

#include <malloc.h>
#include <pthread.h>
#include <stdio.h>
#include <stdlib.h>
#include <string.h>
#include <sys/mman.h>
#include <sys/time.h>
#include <time.h>
#include <unistd.h>

#define LONGEST 65536
/* The word after the last one stands for a graph. */
#define GRAPH (WAC_ERRORS + 1)
#define STATUSES 7
#define MOST_PACKAGES 4
/* All that is handed over: at most two frames for each package. */
#define MOST_BYTES (MOST_PACKAGES * 2 * (LONGEST + 8))
/* The room for a message. */
#define MESSAGE 4096
#define STACK (512 << 10)
/* The memory that a call may take: so many times the bytes that it is given, and 1 MB; with components, what the limits
 * of decoding allow, whatever their length is. */
#define TIMES 512
#define BESIDES (1 << 20)
#define DECODING ((size_t)256 << 20)
/* What bytes of the stack and of the room are that no call wrote, and how many lie after the room. */
#define UNTOUCHED 0xa5
#define GUARD 64

/* ---- memory: the library's calls of malloc, realloc and free come here */

static size_t held, most;

void *__real_malloc(size_t size);
void *__real_realloc(void *block, size_t size);
void __real_free(void *block);

static void *holding(void *block) {
    held += malloc_usable_size(block);
    if (held > most)
        most = held;
    return block;
}

void *__wrap_malloc(size_t size) {
    return holding(__real_malloc(size));
}

void *__wrap_realloc(void *block, size_t size) {
    size_t before = malloc_usable_size(block);
    void *larger = __real_realloc(block, size);
    if (!larger)
        return NULL;
    held -= before;
    return holding(larger);
}

void __wrap_free(void *block) {
    held -= malloc_usable_size(block);
    __real_free(block);
}

/* ---- texts */

typedef struct {
    uint8_t *bytes;
    size_t length;
} text;

typedef struct {
    text *texts;
    size_t count;
} collection;

/* Texts, and components. */
static collection corpus, components;
static uint64_t state;
/* The text that is tried, and the frames of the packages that are handed over with it. */
static text current, packages;
static int has_components;

/* What is put into texts: marks, words, characters of several bytes, and what no text may have. */
static const char *const pieces[] = {
    "(", ")", "[", "]", "<", ">", "{", "}", "{ ... }", "...", ",", ";", ":", "=", ".", "/", "@", "->", "_", "%", "\"",
    "//", "///", "/*", "*/", "/**", "\n", "\r\n", "\t", " ", "package ", "import ", "export ", "let ", "new ", "type ",
    "world w { ", "interface i { ", "include ", "use ", "with ", "as ", "targets ", "record ", "variant ", "enum ",
    "flags ", "resource ", "func(", "static ", "constructor(", "list<", "tuple<", "option<", "result<_, ", "borrow<",
    "own<", "stream<", "future<", "string", "u64", "a:b", "c:d/e@1.0.0", "new c:d { e: ", "x", "y-z", "1.2.3-rc.1+b",
    "package c:d; world w { import y: func(); export f: func(); }", "let x = new c:d { ... };", "export x.f;",
    "\xc3\xa9", "\xe2\x80\xae", "\xf0\x9f\x98\x80", "\xff", "\xc3", "\xe2\x80", "\x01", "\x7f", "\xef\xbb\xbf",
    "\xcc\x81",
};

/* Names of packages: those that documents of the corpus mention, one that few do, and none. */
static const char *const names[] = {"a:b", "c:d", "e:f", "c:d@1.0.0", "example:cache", "n:o@1.2.3-rc.1", "c"};

/* A number below another one, by the generator xorshift64*. */
static size_t below(size_t limit) {
    state ^= state >> 12;
    state ^= state << 25;
    state ^= state >> 27;
    return (size_t)((state * 0x2545f4914f6cdd1dULL) >> 33) % limit;
}

/* Puts bytes at a place of the current text, if there is room for them. */
static void insert(size_t at, const uint8_t *bytes, size_t length) {
    if (current.length + length > LONGEST)
        return;
    memmove(current.bytes + at + length, current.bytes + at, current.length - at);
    memcpy(current.bytes + at, bytes, length);
    current.length += length;
}

/* Removes bytes from a place on. */
static void cut(size_t at, size_t length) {
    if (length > current.length - at)
        length = current.length - at;
    memmove(current.bytes + at, current.bytes + at + length, current.length - at - length);
    current.length -= length;
}

/* Puts a part of a text of the corpus at a place. */
static void splice(size_t at) {
    const text *other = &corpus.texts[below(corpus.count)];
    size_t from = below(other->length + 1);
    insert(at, other->bytes + from, below(other->length - from + 1));
}

/* Puts a part of the current text into it again. */
static void repeat(size_t at) {
    static uint8_t part[1024];
    size_t length = below(current.length - at + 1) % sizeof part;
    memcpy(part, current.bytes + at, length);
    for (size_t times = 1 + below(4); times > 0; times--)
        insert(at, part, length);
}

/* Changes the current text once. */
static void change(void) {
    size_t at = below(current.length + 1);
    const char *piece = pieces[below(sizeof pieces / sizeof *pieces)];
    switch (below(8)) {
    case 0:
        if (at < current.length)
            current.bytes[at] ^= (uint8_t)(1 << below(8));
        break;
    case 1:
        cut(at, 1 + below(16));
        break;
    case 2:
        splice(at);
        break;
    case 3:
        repeat(at);
        break;
    case 4:
        /* Nests, at most about twice as deep as the limit. */
        for (size_t times = below(32) ? 1 : below(300); times > 0; times--)
            insert(at, (const uint8_t *)piece, strlen(piece));
        break;
    case 5:
        current.length = at;
        break;
    default:
        insert(at, (const uint8_t *)piece, strlen(piece));
    }
}

/* Makes the current text: one of the corpus, changed so many times. */
static void make_text(size_t times) {
    current.length = 0;
    const text *first = &corpus.texts[below(corpus.count)];
    insert(0, first->bytes, first->length);
    for (; times > 0; times--)
        change();
}

/* Makes the current text a component, and changes bytes of it, where it is changed. */
static void make_component(void) {
    const text *first = &components.texts[below(components.count)];
    current.length = 0;
    insert(0, first->bytes, first->length);
    for (size_t times = below(3) ? 0 : below(4); times > 0 && current.length > 8; times--)
        current.bytes[8 + below(current.length - 8)] ^= (uint8_t)(1 << below(8));
}

/* Appends the current text to the packages, in a frame whose length is seldom another one. */
static void push_frame(void) {
    size_t length = below(64) ? current.length : below(LONGEST);
    for (int at = 0; at < 8; at++)
        packages.bytes[packages.length++] = (uint8_t)(at < 4 ? length >> (8 * at) : 0);
    memcpy(packages.bytes + packages.length, current.bytes, current.length);
    packages.length += current.length;
}

/* Appends a component after the name of its package. */
static void push_component(void) {
    const char *name = names[below(sizeof names / sizeof *names)];
    current.length = 0;
    insert(0, (const uint8_t *)name, strlen(name));
    push_frame();
    make_component();
    push_frame();
    has_components = 1;
}

/* Makes the packages: none for two texts of three, and else up to four, some of which are changed or cut. */
static void make_packages(void) {
    packages.length = 0;
    has_components = 0;
    for (size_t left = below(3) ? 0 : 1 + below(MOST_PACKAGES); left > 0; left--) {
        if (below(3)) {
            make_text(below(3) ? 0 : 1);
            push_frame();
        } else {
            push_component();
        }
    }
}

/* ---- calls */

static size_t texts, calls, statuses[STATUSES], longest, most_memory, most_decoding, count, every;
static double seconds, slowest, elapsed, most_times;
static uint8_t *room, *second_room, message[MESSAGE + GUARD], second_message[MESSAGE + GUARD];
static size_t room_length;
static uint8_t *last;
static FILE *sample;
static int failed;

/* Seconds by a clock: that of the thread's processor time doesn't count what else runs on the machine. */
static double now(clockid_t clock) {
    struct timespec time;
    clock_gettime(clock, &time);
    return (double)time.tv_sec + 1e-9 * (double)time.tv_nsec;
}

/* Notes which promise a call doesn't keep. */
static void fail(uint32_t word, const char *what) {
    fprintf(stderr, "fuzz: word %u, text %zu: %s\n", (unsigned)word, texts, what);
    failed = 1;
}

/* Room for a call: for what is written and for a message. */
typedef struct {
    uint8_t *out;
    size_t out_room;
    uint8_t *message;
    size_t message_room;
} rooms;

/* Whether so many bytes after a room are untouched. */
static int is_guarded(const uint8_t *after) {
    for (size_t at = 0; at < GUARD; at++)
        if (after[at] != UNTOUCHED)
            return 0;
    return 1;
}

/* Tests what holds of every answer. */
static void test_answer(uint32_t word, const rooms *to, const wac_answer *answer) {
    size_t length = answer->status == WAC_BAD_PACKAGE ? packages.length : current.length;
    if (answer->status >= STATUSES || answer->status == WAC_UNKNOWN || answer->has_place > 1)
        fail(word, "an answer that there isn't");
    if (answer->written > to->out_room || answer->written > answer->needed
        || answer->message_written > to->message_room || answer->message_written > answer->message_needed)
        fail(word, "it wrote more than there is room for, or text");
    if (!is_guarded(to->out + to->out_room) || !is_guarded(to->message + to->message_room))
        fail(word, "it wrote after its room");
    if (answer->status == WAC_WELL ? answer->message_needed != 0 : answer->needed != 0 || answer->message_needed == 0)
        fail(word, "both a text and a message, or neither");
    if (answer->offset > length || answer->length > length + 1 - answer->offset)
        fail(word, "a place out of the text");
}

/* Tests how much memory a call took that was given so many bytes. */
static void test_memory(uint32_t word, size_t took, size_t given) {
    if (word == GRAPH && has_components) {
        if (took > most_decoding)
            most_decoding = took;
        if (took > TIMES * given + DECODING)
            fail(word, "it took more memory than is allowed with components");
        return;
    }
    if (took > most_memory)
        most_memory = took;
    if (took > BESIDES && (double)(took - BESIDES) > most_times * (double)given)
        most_times = (double)(took - BESIDES) / (double)given;
    if (took > TIMES * given + BESIDES)
        fail(word, "it took more memory than is allowed");
}

/* Calls with such room, and tests what holds of every call. */
static wac_answer call(uint32_t word, const rooms *to) {
    wac_answer answer;
    double start = now(CLOCK_THREAD_CPUTIME_ID);
    size_t before = held, given = current.length + (word == GRAPH ? packages.length : 0);
    most = held;
    memset(to->out + to->out_room, UNTOUCHED, GUARD);
    memset(to->message + to->message_room, UNTOUCHED, GUARD);
    if (word == GRAPH)
        wac_graph(0, current.bytes, current.length, packages.bytes, packages.length, to->out, to->out_room,
                  to->message, to->message_room, &answer);
    else
        wac_run(word, 0, current.bytes, current.length, to->out, to->out_room, to->message, to->message_room, &answer);
    double time = now(CLOCK_THREAD_CPUTIME_ID) - start;
    calls += 1;
    if (time > slowest)
        slowest = time;
    if (time > 1)
        fail(word, "it took more than a second");
    if (held != before)
        fail(word, "it kept memory");
    test_memory(word, most - before, given);
    test_answer(word, to, &answer);
    return answer;
}

/* Whether a byte goes on with the character before it. */
static int continues(uint8_t byte) {
    return (byte & 0xc0) == 0x80;
}

/* Makes the room so large that an answer fits. */
static void grow(size_t length) {
    if (length <= room_length)
        return;
    room_length = 2 * length;
    __real_free(room);
    __real_free(second_room);
    room = __real_malloc(room_length + GUARD);
    second_room = __real_malloc(room_length + GUARD);
    if (!room || !second_room)
        exit(2);
}

/* How many bytes of a text fit into a room, in whole characters. */
static size_t fitting(const uint8_t *bytes, size_t length, size_t most_bytes) {
    while (most_bytes < length && most_bytes > 0 && continues(bytes[most_bytes]))
        most_bytes -= 1;
    return most_bytes < length ? most_bytes : length;
}

/* Calls with ample room and with less, and compares. */
static wac_answer call_twice(uint32_t word) {
    rooms ample = {room, room_length, message, MESSAGE};
    wac_answer first = call(word, &ample);
    if (first.needed > room_length) {
        grow(first.needed);
        ample = (rooms){room, first.needed, message, MESSAGE};
        first = call(word, &ample);
    }
    if (first.written != first.needed)
        fail(word, "not all was written, though it fits");
    rooms less = {second_room, below(first.needed + 1), second_message, below(first.message_written + 1)};
    wac_answer second = call(word, &less);
    size_t fits = fitting(room, first.needed, less.out_room);
    size_t message_fits = fitting(message, first.message_written, less.message_room);
    if (second.status != first.status || second.needed != first.needed || second.offset != first.offset
        || second.message_needed != first.message_needed || second.written != fits
        || second.message_written != message_fits || memcmp(room, second_room, fits) != 0
        || memcmp(message, second_message, message_fits) != 0)
        fail(word, "less room, and another answer");
    return first;
}

static void put_number(size_t number) {
    for (int at = 0; at < 4; at++)
        fputc((int)(number >> (8 * at) & 0xff), sample);
}

static void put_frame(const uint8_t *bytes, size_t length) {
    put_number(length);
    fwrite(bytes, 1, length, sample);
}

/* Writes down a text, a call and its answer. */
static void put_sample(uint32_t word, const wac_answer *answer) {
    put_frame(current.bytes, current.length);
    put_frame(packages.bytes, word == GRAPH ? packages.length : 0);
    put_number(word);
    put_number(answer->status);
    put_number(answer->has_place);
    put_number(answer->offset);
    put_number(answer->length);
    put_frame(room, answer->written);
    put_frame(message, answer->message_written);
}

/* Puts a frame into memory, and returns where the next one goes. */
static uint8_t *put_bytes(uint8_t *to, const text *from) {
    for (int at = 0; at < 4; at++)
        *to++ = (uint8_t)(from->length >> (8 * at));
    memcpy(to, from->bytes, from->length);
    return to + from->length;
}

/* Notes which text is tried, with which packages. */
static void put_last(void) {
    put_bytes(put_bytes(last, &current), &packages);
}

static void *run(void *unused) {
    double start = now(CLOCK_MONOTONIC);
    while (texts < count && elapsed < seconds && !failed) {
        make_packages();
        make_text(below(9));
        put_last();
        uint32_t sampled = (uint32_t)below(GRAPH + 1);
        for (uint32_t word = 0; word <= GRAPH && !failed; word++) {
            wac_answer answer = call_twice(word);
            statuses[answer.status < STATUSES ? answer.status : 0] += 1;
            if (word == sampled && texts % every == 0)
                put_sample(word, &answer);
        }
        texts += 1;
        if (current.length > longest)
            longest = current.length;
        elapsed = now(CLOCK_MONOTONIC) - start;
        /* A call that doesn't end is stopped by a signal. */
        setitimer(ITIMER_PROF, &(struct itimerval){.it_value = {.tv_sec = 20}}, NULL);
    }
    return unused;
}

/* Reads the frames of a file. */
static collection read_frames(const char *name) {
    collection found = {NULL, 0};
    FILE *file = fopen(name, "rb");
    uint8_t head[4];
    if (!file)
        exit(2);
    while (fread(head, 1, 4, file) == 4) {
        size_t length = head[0] | (size_t)head[1] << 8 | (size_t)head[2] << 16 | (size_t)head[3] << 24;
        uint8_t *bytes = malloc(length + 1);
        found.texts = realloc(found.texts, (found.count + 1) * sizeof *found.texts);
        if (!bytes || !found.texts || fread(bytes, 1, length, file) != length)
            exit(2);
        found.texts[found.count++] = (text){bytes, length};
    }
    fclose(file);
    return found;
}

/* A file that is written to as memory is. */
static uint8_t *mapped(const char *name, size_t length) {
    FILE *file = fopen(name, "w+b");
    if (!file || fseek(file, (long)length - 1, SEEK_SET) != 0 || fputc(0, file) == EOF || fflush(file) != 0)
        exit(2);
    void *bytes = mmap(NULL, length, PROT_READ | PROT_WRITE, MAP_SHARED, fileno(file), 0);
    fclose(file);
    if (bytes == MAP_FAILED)
        exit(2);
    return bytes;
}

/* Valgrind takes a stack's bytes for invalid once they are left. It loads a library of its own into each program. */
static int is_under_valgrind(void) {
    const char *loaded = getenv("LD_PRELOAD");
    return loaded && strstr(loaded, "vgpreload");
}

/* Runs in a thread whose stack has a page below it that can't be written, and returns how much of the stack it took, or
 * under valgrind 0. */
static size_t run_in_thread(void) {
    size_t page = (size_t)sysconf(_SC_PAGESIZE), at = 0;
    pthread_t thread;
    pthread_attr_t attributes;
    uint8_t *below_stack = mmap(NULL, page + STACK, PROT_READ | PROT_WRITE, MAP_PRIVATE | MAP_ANONYMOUS, -1, 0);
    if (below_stack == MAP_FAILED || mprotect(below_stack, page, PROT_NONE) != 0)
        exit(2);
    uint8_t *stack = below_stack + page;
    memset(stack, UNTOUCHED, STACK);
    pthread_attr_init(&attributes);
    if (pthread_attr_setstack(&attributes, stack, STACK) != 0 || pthread_create(&thread, &attributes, run, NULL) != 0)
        exit(2);
    pthread_join(thread, NULL);
    if (is_under_valgrind())
        return 0;
    while (at < STACK && stack[at] == UNTOUCHED)
        at++;
    return STACK - at;
}

int main(int argc, char **argv) {
    if (argc != 9)
        return 2;
    corpus = read_frames(argv[1]);
    components = read_frames(argv[2]);
    count = strtoull(argv[3], NULL, 10);
    /* Of near seeds the first numbers would be near, too. */
    state = (strtoull(argv[4], NULL, 10) + 1) * 0x9e3779b97f4a7c15ULL;
    seconds = strtod(argv[5], NULL);
    last = mapped(argv[6], LONGEST + 4 + MOST_BYTES + 4);
    sample = fopen(argv[7], "wb");
    every = strtoull(argv[8], NULL, 10);
    current.bytes = malloc(LONGEST);
    packages.bytes = malloc(MOST_BYTES);
    grow(4096);
    if (!corpus.count || !components.count || !sample || !every || !current.bytes || !packages.bytes)
        return 2;
    size_t stack = run_in_thread();
    if (fclose(sample) != 0)
        return 2;
    printf("texts=%zu calls=%zu seconds=%.0f longest=%zu slowest_ms=%.1f memory=%zu times=%.1f decoding=%zu stack=%zu", texts,
           calls, elapsed, longest, 1000 * slowest, most_memory, most_times, most_decoding, stack);
    printf(" well=%zu rejected=%zu not_utf8=%zu out_of_memory=%zu nested_too_deep=%zu bad_package=%zu\n",
           statuses[WAC_WELL], statuses[WAC_REJECTED], statuses[WAC_NOT_UTF8], statuses[WAC_OUT_OF_MEMORY],
           statuses[WAC_NESTED_TOO_DEEP], statuses[WAC_BAD_PACKAGE]);
    return failed;
}
