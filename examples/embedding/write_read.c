/* A write and a read of its bytes, as examples/write-read.script has them: prints the replies as ./ddr sim does.
 *
 *     write_read CONFIG       CONFIG is a file, such as examples/sample.config
 */
#include "ddr.h"

#include <inttypes.h>
#include <stdio.h>
#include <stdlib.h>

static char text[1 << 16];

static void fail(const char *call, int32_t code) {
    fprintf(stderr, "%s: %" PRId32 "\n", call, code);
    exit(1);
}

/* Prints the replies of a port that are ready, and says how many there were. */
static unsigned print_replies(ddr_core *core, uint32_t port) {
    unsigned printed = 0;
    ddr_reply reply;
    uint8_t bytes[64];
    int32_t code;
    while ((code = ddr_next_reply(core, port, &reply, bytes, sizeof bytes)) == DDR_OK) {
        printf("%" PRIu32 " %" PRIu64 " %s %" PRIu64, port, reply.number, reply.kind == DDR_READ ? "read" : "write", reply.addr);
        if (reply.kind == DDR_READ) putchar(' ');
        for (uint64_t i = 0; i < reply.bytes; i++) printf("%02x", bytes[i]);
        putchar('\n');
        printed++;
    }
    if (code != DDR_NOTHING) fail("ddr_next_reply", code);
    return printed;
}

int main(int argc, char **argv) {
    FILE *file = argc == 2 ? fopen(argv[1], "rb") : NULL;
    if (file == NULL) {
        fprintf(stderr, "usage: %s CONFIG\n", argv[0]);
        return 2;
    }
    size_t length = fread(text, 1, sizeof text, file);
    fclose(file);

    ddr_core core = DDR_CORE_INIT;
    char message[128];
    uint64_t whole, number, made;
    int32_t code = ddr_open(&core, text, length, message, sizeof message, &whole);
    if (code == DDR_CONFIG) fprintf(stderr, "%.*s\n", (int)(whole < sizeof message ? whole : sizeof message), message);
    if (code != DDR_OK) fail("ddr_open", code);

    const uint8_t bytes[] = {0x0a, 0x0b, 0x0c, 0x0d};
    if ((code = ddr_submit_write(&core, 0, 0, bytes, sizeof bytes, &number)) != DDR_OK) fail("ddr_submit_write", code);
    if ((code = ddr_submit_read(&core, 0, 0, sizeof bytes, &number)) != DDR_OK) fail("ddr_submit_read", code);
    for (unsigned left = 2; left > 0;) {
        if ((code = ddr_rounds(&core, 1, &made)) != DDR_OK) fail("ddr_rounds", code);
        left -= print_replies(&core, 0);
    }
    return ddr_close(&core) == DDR_OK ? 0 : 1;
}
