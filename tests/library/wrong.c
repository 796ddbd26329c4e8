/* Each call with arguments that it refuses: each answers its code, and what it was handed stays as it is. Then a trace in
 * pieces, the counts, and the cycles of requests, reckoned by hand. */
#include "ddr.h"

#include <stdio.h>
#include <string.h>

static char text[1 << 16];
static size_t length;
static unsigned failed;

static void wants(const char *what, int64_t got, int64_t wanted) {
    if (got == wanted) return;
    printf("%s: %lld, wanted %lld\n", what, (long long)got, (long long)wanted);
    failed++;
}

/* What a null pointer answers. */
static void nulls(void) {
    ddr_core core = DDR_CORE_INIT;
    ddr_memory_shape shape = {.ports = 7};
    ddr_channel_statistics statistics = {.reads = 7};
    ddr_port_statistics port = {.taken = 7};
    ddr_reply reply;
    uint8_t bytes[64] = {0};
    uint64_t n = 7;
    wants("open, no core", ddr_open(NULL, text, length, NULL, 0, &n), DDR_NULL);
    wants("open, no text", ddr_open(&core, NULL, length, NULL, 0, &n), DDR_NULL);
    wants("open, no message", ddr_open(&core, text, length, NULL, 1, &n), DDR_NULL);
    wants("open, no length", ddr_open(&core, text, length, NULL, 0, NULL), DDR_NULL);
    wants("open without traces, no core", ddr_open_without_traces(NULL, text, length, NULL, 0, &n), DDR_NULL);
    wants("open without traces, no text", ddr_open_without_traces(&core, NULL, length, NULL, 0, &n), DDR_NULL);
    wants("read, no core", ddr_submit_read(NULL, 0, 0, 1, &n), DDR_NULL);
    wants("read, no number", ddr_submit_read(&core, 0, 0, 1, NULL), DDR_NULL);
    wants("write, no core", ddr_submit_write(NULL, 0, 0, bytes, 1, &n), DDR_NULL);
    wants("write, no bytes", ddr_submit_write(&core, 0, 0, NULL, 1, &n), DDR_NULL);
    wants("masked, no core", ddr_submit_masked(NULL, 0, 0, bytes, 64, 1, &n), DDR_NULL);
    wants("masked, no line", ddr_submit_masked(&core, 0, 0, NULL, 64, 1, &n), DDR_NULL);
    wants("quiet, no core", ddr_quiet(NULL, &n), DDR_NULL);
    wants("rounds, no core", ddr_rounds(NULL, 1, &n), DDR_NULL);
    wants("rounds, no count", ddr_rounds(&core, 1, NULL), DDR_NULL);
    wants("next, no core", ddr_next_reply(NULL, 0, &reply, bytes, 64), DDR_NULL);
    wants("next, no head", ddr_next_reply(&core, 0, NULL, bytes, 64), DDR_NULL);
    wants("next, no buffer", ddr_next_reply(&core, 0, &reply, NULL, 64), DDR_NULL);
    wants("served, no core", ddr_served(NULL, 0, 0, &reply, bytes, 64), DDR_NULL);
    wants("served, no head", ddr_served(&core, 0, 0, NULL, bytes, 64), DDR_NULL);
    wants("served, no buffer", ddr_served(&core, 0, 0, &reply, NULL, 64), DDR_NULL);
    wants("counts, no core", ddr_counts(NULL, 0, &n, &n), DDR_NULL);
    wants("counts, no accepted", ddr_counts(&core, 0, NULL, &n), DDR_NULL);
    wants("counts, no taken", ddr_counts(&core, 0, &n, NULL), DDR_NULL);
    wants("cycle, no core", ddr_cycle(NULL, 0, &n), DDR_NULL);
    wants("trace, no core", ddr_trace(NULL, 0, 0, NULL, 0, &n), DDR_NULL);
    wants("trace, no places", ddr_trace(&core, 0, 0, NULL, 1, &n), DDR_NULL);
    wants("shape, no core", ddr_shape(NULL, &shape), DDR_NULL);
    wants("shape, no place", ddr_shape(&core, NULL), DDR_NULL);
    wants("port's statistics, no core", ddr_statistics_of_port(NULL, 0, &port), DDR_NULL);
    wants("port's statistics, no place", ddr_statistics_of_port(&core, 0, NULL), DDR_NULL);
    wants("statistics, no core", ddr_statistics_of_channel(NULL, 0, &statistics), DDR_NULL);
    wants("statistics, no place", ddr_statistics_of_channel(&core, 0, NULL), DDR_NULL);
    wants("close, no core", ddr_close(NULL), DDR_NULL);
    wants("untouched", (int64_t)n, 7);
    wants("shape untouched", shape.ports, 7);
    wants("statistics untouched", (int64_t)statistics.reads, 7);
    wants("port's statistics untouched", (int64_t)port.taken, 7);
}

/* What a closed core answers. */
static void closed(ddr_core *core) {
    ddr_reply reply;
    ddr_command commands[2];
    ddr_memory_shape shape = {.capacity = 7};
    ddr_channel_statistics statistics = {.reads = 7};
    ddr_port_statistics port = {.taken = 7};
    uint8_t bytes[64] = {0};
    uint64_t n = 7;
    wants("closed read", ddr_submit_read(core, 0, 0, 1, &n), DDR_CLOSED);
    wants("closed write", ddr_submit_write(core, 0, 0, bytes, 1, &n), DDR_CLOSED);
    wants("closed masked", ddr_submit_masked(core, 0, 0, bytes, 64, 1, &n), DDR_CLOSED);
    wants("closed quiet", ddr_quiet(core, &n), DDR_CLOSED);
    wants("closed rounds", ddr_rounds(core, 1, &n), DDR_CLOSED);
    wants("closed next", ddr_next_reply(core, 0, &reply, bytes, 64), DDR_CLOSED);
    wants("closed counts", ddr_counts(core, 0, &n, &n), DDR_CLOSED);
    wants("closed cycle", ddr_cycle(core, 0, &n), DDR_CLOSED);
    wants("closed trace", ddr_trace(core, 0, 0, commands, 2, &n), DDR_CLOSED);
    wants("closed shape", ddr_shape(core, &shape), DDR_CLOSED);
    wants("closed served", ddr_served(core, 0, 0, &reply, bytes, 64), DDR_CLOSED);
    wants("closed port's statistics", ddr_statistics_of_port(core, 0, &port), DDR_CLOSED);
    wants("closed statistics", ddr_statistics_of_channel(core, 0, &statistics), DDR_CLOSED);
    wants("closed close", ddr_close(core), DDR_CLOSED);
    wants("untouched", (int64_t)n, 7);
    wants("shape untouched", (int64_t)shape.capacity, 7);
    wants("statistics untouched", (int64_t)statistics.reads, 7);
    wants("port's statistics untouched", (int64_t)port.taken, 7);
}

/* What a configuration that is refused answers, with its text as far as it fits. */
static void refused(ddr_core *core) {
    char message[16];
    uint64_t whole = 0;
    memset(message, '.', sizeof message);
    wants("no TOML", ddr_open(core, "=", 1, message, 8, &whole), DDR_CONFIG);
    wants("its text", memcmp(message, "the conf........", 16), 0);
    wants("its length", (int64_t)whole, 33);
    wants("no key", ddr_open(core, NULL, 0, NULL, 0, &whole), DDR_CONFIG);
    wants("no UTF-8", ddr_open(core, "\xff", 1, message, 16, &whole), DDR_CONFIG);
    closed(core);
}

/* What an open core answers out of range. */
static void ranges(ddr_core *core) {
    ddr_channel_statistics statistics = {.reads = 7};
    ddr_port_statistics port = {.taken = 7};
    ddr_reply reply;
    uint8_t bytes[64] = {0};
    uint64_t n = 7;
    wants("open again", ddr_open(core, text, length, NULL, 0, &n), DDR_ALREADY_OPEN);
    wants("open again without traces", ddr_open_without_traces(core, text, length, NULL, 0, &n), DDR_ALREADY_OPEN);
    wants("port", ddr_submit_read(core, 99, 0, 1, &n), DDR_NO_SUCH);
    wants("address", ddr_submit_read(core, 0, UINT64_MAX, 1, &n), DDR_OUT_OF_RANGE);
    wants("length", ddr_submit_read(core, 0, 0, 0, &n), DDR_EMPTY_LENGTH);
    wants("line", ddr_submit_read(core, 0, 63, 2, &n), DDR_CROSSES_LINE);
    wants("no bytes", ddr_submit_write(core, 0, 0, NULL, 0, &n), DDR_EMPTY_LENGTH);
    wants("write's line", ddr_submit_write(core, 0, 1, bytes, 64, &n), DDR_CROSSES_LINE);
    wants("masked", ddr_submit_masked(core, 0, 0, bytes, 63, 1, &n), DDR_TOO_SHORT);
    wants("next's port", ddr_next_reply(core, 99, &reply, bytes, 64), DDR_NO_SUCH);
    wants("next", ddr_next_reply(core, 0, &reply, bytes, 64), DDR_NOTHING);
    wants("counts' port", ddr_counts(core, 99, &n, &n), DDR_NO_SUCH);
    wants("cycle's channel", ddr_cycle(core, 99, &n), DDR_NO_SUCH);
    wants("trace's channel", ddr_trace(core, 99, 0, NULL, 0, &n), DDR_NO_SUCH);
    wants("served at a port", ddr_served(core, 99, 0, &reply, bytes, 64), DDR_NO_SUCH);
    wants("served though not asked for", ddr_served(core, 0, 0, &reply, bytes, 64), DDR_NOTHING);
    wants("statistics' port", ddr_statistics_of_port(core, 99, &port), DDR_NO_SUCH);
    wants("statistics' channel", ddr_statistics_of_channel(core, 99, &statistics), DDR_NO_SUCH);
    wants("statistics untouched", (int64_t)statistics.reads, 7);
    wants("port's statistics untouched", (int64_t)port.taken, 7);
    wants("untouched", (int64_t)n, 7);
}

/* The shape of the sample configuration: 64 bytes in each of 2 channels, 4 groups of 4 banks, 16 rows of 64 / 8 lines. */
static void shaped(ddr_core *core) {
    ddr_memory_shape shape;
    wants("shape", ddr_shape(core, &shape), DDR_OK);
    wants("capacity", (int64_t)shape.capacity, 262144);
    wants("channels", shape.channels, 2);
    wants("ranks", shape.ranks, 1);
    wants("groups", shape.groups, 4);
    wants("banks", shape.banks, 4);
    wants("rows", shape.rows, 16);
    wants("columns", shape.columns, 64);
    wants("line", shape.line, 64);
    wants("burst", shape.burst, 4);
    wants("ports", shape.ports, 2);
    wants("window", shape.window, 4);
}

/* The names of codes. */
static void named(void) {
    wants("name of OK", strcmp(ddr_code_name(DDR_OK), "OK"), 0);
    wants("name of BUSY", strcmp(ddr_code_name(DDR_BUSY), "BUSY"), 0);
    wants("name of NOT_JUDGED", strcmp(ddr_code_name(DDR_NOT_JUDGED), "NOT_JUDGED"), 0);
    wants("name of NO_TRACE", strcmp(ddr_code_name(DDR_NO_TRACE), "NO_TRACE"), 0);
    wants("name of none", strcmp(ddr_code_name(DDR_NO_TRACE + 1), ""), 0);
    wants("name of less than none", strcmp(ddr_code_name(-1), ""), 0);
}

/* What a channel did in so many cycles: with one write and one read of a row, opened by one ACT, the first a miss and the other a hit, or with
 * none. A REF falls due in cycles 200 and 400, where there are so many, and each is paid for in its cycle, with all banks idle or behind a
 * PREA, so that no more than one is owed. */
static void counted(ddr_core *core, uint32_t channel, int64_t cycles, int64_t requests, int64_t refreshes) {
    ddr_channel_statistics did;
    wants("statistics", ddr_statistics_of_channel(core, channel, &did), DDR_OK);
    wants("cycles", (int64_t)did.cycles, cycles);
    wants("activates", (int64_t)did.activates, requests);
    wants("precharges", (int64_t)did.precharges, 0);
    wants("precharges of all", (int64_t)did.precharges_all, requests);
    wants("refreshes", (int64_t)did.refreshes, refreshes);
    wants("reads", (int64_t)did.reads, requests);
    wants("writes", (int64_t)did.writes, requests);
    wants("auto-precharges", (int64_t)(did.reads_auto + did.writes_auto), 0);
    wants("hits", (int64_t)did.row_hits, requests);
    wants("misses", (int64_t)did.row_misses, requests);
    wants("conflicts", (int64_t)did.row_conflicts, 0);
    wants("busy clocks", (int64_t)did.busy_clocks, 8 * requests);
    wants("turn-rounds", (int64_t)did.turn_rounds, requests);
    wants("switches of rank", (int64_t)did.rank_switches, 0);
    wants("refreshes owed", (int64_t)did.refresh_debt_most, refreshes == 0 ? 0 : 1);
}

/* The cycles of a request that was accepted before the first round and taken after 500 of them. */
static void wants_cycles(const ddr_reply *reply, int64_t issued, int64_t due) {
    wants("accepted", (int64_t)reply->accepted, 0);
    wants("issued", (int64_t)reply->issued, issued);
    wants("due", (int64_t)reply->due, due);
    wants("released", (int64_t)reply->released, 500);
}

/* A masked write and a read of its line, by a buffer that is too short first. */
static void masked(ddr_core *core) {
    ddr_reply reply;
    uint8_t line[64], bytes[64];
    uint64_t n, taken;
    for (unsigned i = 0; i < 64; i++) line[i] = (uint8_t)i;
    wants("masked write", ddr_submit_masked(core, 1, 64, line, 64, 0x8000000000000002u, &n), DDR_OK);
    wants("its number", (int64_t)n, 0);
    wants("read", ddr_submit_read(core, 1, 64, 64, &n), DDR_OK);
    wants("its number", (int64_t)n, 1);
    wants("counts", ddr_counts(core, 1, &n, &taken), DDR_OK);
    wants("accepted", (int64_t)n, 2);
    wants("taken", (int64_t)taken, 0);
    wants("rounds", ddr_rounds(core, 500, &n), DDR_OK);
    wants("made", (int64_t)n, 500);
    /* Behind the write that was not taken, and not taken either. */
    wants("served too short", ddr_served(core, 1, 1, &reply, bytes, 63), DDR_TOO_SHORT);
    wants("bytes needed", (int64_t)reply.bytes, 64);
    wants("served", ddr_served(core, 1, 1, &reply, bytes, 64), DDR_OK);
    wants("its number", (int64_t)reply.number, 1);
    wants("byte 63", bytes[63], 63);
    wants_cycles(&reply, 15, 23);
    wants("not asked for", ddr_served(core, 1, 2, &reply, bytes, 64), DDR_NOTHING);
    wants("not asked for", ddr_served(core, 1, UINT64_MAX, &reply, bytes, 64), DDR_NOTHING);
    wants("written", ddr_next_reply(core, 1, &reply, NULL, 0), DDR_OK);
    wants("its kind", reply.kind, DDR_WRITE);
    wants_cycles(&reply, 4, 11); /* tRCD behind the ACT in cycle 0; CWL + 4 later */
    wants("too short", ddr_next_reply(core, 1, &reply, bytes, 63), DDR_TOO_SHORT);
    wants("bytes needed", (int64_t)reply.bytes, 64);
    wants("read back", ddr_next_reply(core, 1, &reply, bytes, 64), DDR_OK);
    wants_cycles(&reply, 15, 23); /* CWL + 4 + tWTR_L behind the write; CL + 4 later */
    wants("taken", ddr_served(core, 1, 1, &reply, bytes, 64), DDR_NOTHING);
    wants("byte 0", bytes[0], 0);
    wants("byte 1", bytes[1], 1);
    wants("byte 2", bytes[2], 0);
    wants("byte 63", bytes[63], 63);
    wants("counts", ddr_counts(core, 1, &n, &taken), DDR_OK);
    wants("accepted", (int64_t)n, 2);
    wants("taken", (int64_t)taken, 2);
    wants("cycle", ddr_cycle(core, 0, &n), DDR_OK);
    wants("its cycle", (int64_t)n, 500);
}

/* The whole trace one command at a time is the trace at once, with cycles that grow. */
static void traced(ddr_core *core) {
    ddr_command all[256], one;
    uint64_t count, n, before = 0;
    wants("trace", ddr_trace(core, 0, 0, all, 256, &count), DDR_OK);
    for (uint64_t i = 0; i < count; i++) {
        wants("piece", ddr_trace(core, 0, i, &one, 1, &n), DDR_OK);
        wants("one", (int64_t)n, 1);
        wants("same", memcmp(&one, &all[i], sizeof one), 0);
        wants("grows", i == 0 || one.cycle > before, 1);
        before = one.cycle;
    }
    wants("behind", ddr_trace(core, 0, count, &one, 1, &n), DDR_OK);
    wants("none", (int64_t)n, 0);
    wants("far behind", ddr_trace(core, 0, UINT64_MAX, &one, 1, &n), DDR_OK);
    wants("none", (int64_t)n, 0);
    wants("first", count > 0 && all[0].kind == DDR_ACT && all[0].column == DDR_NONE, 1);
}

/* A core that was opened without traces has none to copy, of whatever channel. */
static void untraced(ddr_core *core) {
    ddr_command one = {.row = 7};
    uint64_t n = 7;
    wants("no trace", ddr_trace(core, 0, 0, &one, 1, &n), DDR_NO_TRACE);
    wants("no trace of none", ddr_trace(core, 99, 0, &one, 1, &n), DDR_NO_TRACE);
    wants("no command", one.row, 7);
    wants("no count", (int64_t)n, 7);
}

static void spreads(const char *what, const ddr_spread *spread, int64_t clocks, int64_t bound) {
    wants(what, (int64_t)spread->count, 1);
    wants(what, (int64_t)spread->clocks, clocks);
    wants(what, (int64_t)spread->least, clocks);
    wants(what, (int64_t)spread->most, clocks);
    wants(what, (int64_t)spread->p50_at_most, bound);
    wants(what, (int64_t)spread->p90_at_most, bound);
    wants(what, (int64_t)spread->p99_at_most, bound);
    wants(what, (int64_t)spread->p999_at_most, bound);
}

/* What came of the write and the read of port 1, which were accepted in cycle 0 and whose replies were taken at clock 500. A number below 16 is
 * bounded by itself, 23 by its class of two, and 500 by its class of 32, which ends at 511. */
static void asked(ddr_core *core) {
    ddr_port_statistics port;
    wants("port's statistics", ddr_statistics_of_port(core, 1, &port), DDR_OK);
    wants("port's accepted", (int64_t)port.accepted, 2);
    wants("port's taken", (int64_t)port.taken, 2);
    wants("port's refused", (int64_t)(port.refused_for_window + port.refused_for_queue), 0);
    spreads("write to issue", &port.writes.accepted_to_issued, 4, 4);
    spreads("write to done", &port.writes.accepted_to_done, 11, 11);
    spreads("write to released", &port.writes.accepted_to_released, 500, 511);
    spreads("read to issue", &port.reads.accepted_to_issued, 15, 15);
    spreads("read to done", &port.reads.accepted_to_done, 23, 23);
    spreads("read to released", &port.reads.accepted_to_released, 500, 511);
    wants("other port's statistics", ddr_statistics_of_port(core, 0, &port), DDR_OK);
    wants("other port's accepted", (int64_t)port.accepted, 0);
    wants("other port's reads", (int64_t)port.reads.accepted_to_done.count, 0);
    wants("other port's bound", (int64_t)port.reads.accepted_to_done.p50_at_most, 0);
}

/* A port with a window of four refuses a fifth request, each time that it is asked. */
static void waited(ddr_core *core) {
    ddr_port_statistics port;
    uint64_t n;
    for (uint64_t i = 0; i < 4; i++) wants("within the window", ddr_submit_read(core, 0, 64 * i, 1, &n), DDR_OK);
    for (unsigned i = 0; i < 3; i++) wants("past the window", ddr_submit_read(core, 0, 0, 1, &n), DDR_WINDOW_FULL);
    wants("out of range", ddr_submit_read(core, 0, UINT64_MAX, 1, &n), DDR_OUT_OF_RANGE);
    wants("port's statistics", ddr_statistics_of_port(core, 0, &port), DDR_OK);
    wants("accepted", (int64_t)port.accepted, 4);
    wants("taken", (int64_t)port.taken, 0);
    wants("refused for the window", (int64_t)port.refused_for_window, 3);
    wants("refused for the queue", (int64_t)port.refused_for_queue, 0);
    wants("other port's statistics", ddr_statistics_of_port(core, 1, &port), DDR_OK);
    wants("refused at the other port", (int64_t)port.refused_for_window, 0);
}

int main(int argc, char **argv) {
    FILE *file = argc == 2 ? fopen(argv[1], "rb") : NULL;
    if (file == NULL) return 2;
    length = fread(text, 1, sizeof text, file);
    fclose(file);
    ddr_core core = DDR_CORE_INIT;
    uint64_t whole;
    nulls();
    closed(&core);
    refused(&core);
    wants("open", ddr_open(&core, text, length, NULL, 0, &whole), DDR_OK);
    counted(&core, 0, 0, 0, 0);
    ranges(&core);
    shaped(&core);
    named();
    masked(&core);
    counted(&core, 0, 500, 1, 2);
    counted(&core, 1, 500, 0, 2);
    counted(&core, 0, 500, 1, 2);
    traced(&core);
    asked(&core);
    wants("close", ddr_close(&core), DDR_OK);
    closed(&core);
    wants("open without traces", ddr_open_without_traces(&core, text, length, NULL, 0, &whole), DDR_OK);
    counted(&core, 0, 0, 0, 0);
    untraced(&core);
    shaped(&core);
    masked(&core);
    counted(&core, 0, 500, 1, 2);
    counted(&core, 1, 500, 0, 2);
    untraced(&core);
    asked(&core);
    wants("close", ddr_close(&core), DDR_OK);
    closed(&core);
    wants("open anew", ddr_open(&core, text, length, NULL, 0, &whole), DDR_OK);
    waited(&core);
    wants("close with one outstanding", ddr_close(&core), DDR_OK);
    return failed != 0;
}
