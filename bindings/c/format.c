/* Formats standard input as `wacx fmt -` does: an example of include/wac.h. */
#include "wac.h"

#include <stdio.h>
#include <stdlib.h>

static uint8_t text[1 << 20], message[256];

int main(void) {
    size_t length = fread(text, 1, sizeof text, stdin), room = 2 * length + 1;
    uint8_t *out = malloc(room);
    wac_answer answer;
    if (!out || !feof(stdin))
        return 3;
    wac_run(WAC_TIDY, 0, text, length, out, room, message, sizeof message, &answer);
    if (answer.needed > room) {
        /* The room was too small. Now it gets as large as the answer. */
        free(out);
        room = answer.needed;
        out = malloc(room);
        if (!out)
            return 4;
        wac_run(WAC_TIDY, 0, text, length, out, room, message, sizeof message, &answer);
    }
    if (answer.status == WAC_WELL)
        fwrite(out, 1, answer.written, stdout);
    else if (answer.has_place)
        fprintf(stderr, "error at %zu+%zu: %.*s\n", answer.offset, answer.length, (int)answer.message_written,
                (char *)message);
    else
        fprintf(stderr, "%.*s\n", (int)answer.message_written, (char *)message);
    free(out);
    return (int)answer.status;
}
