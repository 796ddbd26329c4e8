/*
 * Juqembo as a library: a model of DDR4 memory controllers that another simulator drives by calls, cycle by cycle.
 *
 * What C keeps, since nothing checks it:
 *   - A ddr_core is zeroed before its first call (ddr_core core = DDR_CORE_INIT;), never copied, and changed by calls alone.
 *   - A core is in one call at a time. Two cores share nothing: each may have a thread of its own, and stays on it.
 *   - Each buffer that is handed over has the length that is named, and stays as it is until the call returns, and no longer:
 *     no call keeps a pointer. The buffers of one call do not overlap.
 *   - malloc, realloc and free are those of the C library, and no call is made from a signal handler.
 *
 * Each call answers a code of enum ddr_code. Where it is not DDR_OK, the core and what lies at the pointers are as they were,
 * but for what the call's own text says. No call waits, prints or ends the program; want of memory is a code.
 */
#ifndef DDR_H
#define DDR_H

#include <stdbool.h>
#include <stddef.h>
#include <stdint.h>

#ifdef __cplusplus
extern "C" {
#endif

/* A core, or none. Its fields are the library's. */
typedef struct ddr_core {
    bool open;
    void *at;
} ddr_core;

#define DDR_CORE_INIT {false, NULL}

enum ddr_code {
    DDR_OK = 0,
    DDR_NULL = 1,          /* a pointer is null */
    DDR_CLOSED = 2,        /* the core is closed */
    DDR_ALREADY_OPEN = 3,  /* the core is open */
    DDR_CONFIG = 4,        /* the configuration is refused */
    DDR_NO_MEMORY = 5,     /* memory was refused */
    DDR_NO_SUCH = 6,       /* there is no such port or channel */
    DDR_NOTHING = 7,       /* no reply is ready */
    DDR_TOO_SHORT = 8,     /* the buffer is too short, or a line has not 64 bytes */
    DDR_FINISHED = 9,      /* the port is finished; no call of this library finishes one */
    DDR_OUT_OF_RANGE = 10, /* the first address is not below the memory's capacity */
    DDR_EMPTY_LENGTH = 11, /* no byte is asked for */
    DDR_CROSSES_LINE = 12, /* the bytes are not all in the 64-byte line of the first */
    DDR_SPENT = 13,        /* the next number is 2^62, which no port gives */
    DDR_WINDOW_FULL = 14,  /* as many requests of the port are outstanding as its window allows */
    DDR_BUSY = 15,         /* the queue of the request's channel is full: make a round and ask again */
    DDR_QUEUE_FULL = 16,   /* no call of this library answers it */
    DDR_CLOCK_SPENT = 17,  /* a channel's clock has come to 2^62 */
    DDR_NOT_EMPTY = 18,    /* no call of this library answers it */
    DDR_ILLEGAL = 19,      /* a rule is broken (ddr_judge.h) */
    DDR_NOT_JUDGED = 20,   /* the rules do not speak of such a command (ddr_judge.h) */
    DDR_NO_TRACE = 21      /* the core was opened without traces */
};

/* A reply's head: the request's number at its port, its first address, how many bytes were copied (for a write none), the
 * length that was asked for, and four cycles. Those of the request's column command and of its completion are cycles of its
 * channel; the clock at a call is the next cycle of channel 0, which all channels are at, as long as no ddr_rounds answered
 * DDR_NO_MEMORY. */
enum ddr_kind { DDR_READ = 0, DDR_WRITE = 1 };

typedef struct ddr_reply {
    uint64_t number;
    uint64_t addr;
    uint64_t bytes;
    uint32_t length;
    uint32_t kind;     /* of enum ddr_kind */
    uint64_t accepted; /* the clock when the request was accepted */
    uint64_t issued;   /* the cycle of its column command */
    uint64_t due;      /* the cycle of its completion: CL or CWL, and 4 clocks of a burst, behind the command */
    uint64_t released; /* the clock when the reply was taken */
} ddr_reply;

/* A command on a channel's bus, by its cycle. A place that the command does not name is DDR_NONE. */
enum ddr_command_kind {
    DDR_ACT = 0,
    DDR_RD = 1,
    DDR_WR = 2,
    DDR_RDA = 3,
    DDR_WRA = 4,
    DDR_PRE = 5,
    DDR_PREA = 6,
    DDR_REF = 7,
    /* What a bus may carry and the rules do not speak of: a judge refuses each (ddr_judge.h), and no channel issues one. */
    DDR_MRS = 8,
    DDR_ZQCS = 9,
    DDR_ZQCL = 10,
    DDR_NOP = 11,
    DDR_DES = 12,
    DDR_PDE = 13,
    DDR_PDX = 14,
    DDR_SRE = 15,
    DDR_SRX = 16,
    DDR_RFU = 17
};

#define DDR_NONE UINT32_MAX

typedef struct ddr_command {
    uint64_t cycle;
    uint32_t kind;
    uint32_t rank;
    uint32_t group;
    uint32_t bank;
    uint32_t row;
    uint32_t column;
} ddr_command;

/* The shape of a core's memory and of its ports: `capacity` and `line` are bytes, `burst` clocks of the data bus for a line, and the
 * others counts: ranks of a channel, bank groups of a rank, banks of a group, rows of a bank, device columns of a row, and requests of a
 * port that may be outstanding. */
typedef struct ddr_memory_shape {
    uint64_t capacity;
    uint32_t channels;
    uint32_t ranks;
    uint32_t groups;
    uint32_t banks;
    uint32_t rows;
    uint32_t columns;
    uint32_t line;
    uint32_t burst;
    uint32_t ports;
    uint32_t window;
} ddr_memory_shape;

/* What a channel did so far: commands of each kind (those with auto-precharge apart), how its reads and writes found their banks, for how
 * many clocks data were on its data bus, how often that turned round or went to another rank, the most REFs that a rank owed in
 * a cycle, and in how many cycles writes were drained. docs/FORMATS.md says of each key of the same name, in the statistics of a replay, what it counts. */
typedef struct ddr_channel_statistics {
    uint64_t cycles;
    uint64_t activates;
    uint64_t precharges;
    uint64_t precharges_all;
    uint64_t refreshes;
    uint64_t reads;
    uint64_t writes;
    uint64_t reads_auto;
    uint64_t writes_auto;
    uint64_t row_hits;
    uint64_t row_misses;
    uint64_t row_conflicts;
    uint64_t busy_clocks;
    uint64_t turn_rounds;
    uint64_t rank_switches;
    uint64_t refresh_debt_most;
    uint64_t drain_cycles;
} ddr_channel_statistics;

/* How the clocks are spread that some requests took: how many requests, all their clocks together, the fewest and the most, 0 where there
 * is none, and what 50, 90, 99 and 99.9 in a hundred don't pass, which is exact below 16 and else at most an eighth too much, as in the
 * numbers of a replay. Each stops at 2^64 - 1. */
typedef struct ddr_spread {
    uint64_t count;
    uint64_t clocks;
    uint64_t least;
    uint64_t most;
    uint64_t p50_at_most;
    uint64_t p90_at_most;
    uint64_t p99_at_most;
    uint64_t p999_at_most;
} ddr_spread;

/* How long those requests took whose replies were taken, from their acceptance on: to the cycle of the column command, to completion, and
 * to the clock when the reply was taken. */
typedef struct ddr_request_statistics {
    ddr_spread accepted_to_issued;
    ddr_spread accepted_to_done;
    ddr_spread accepted_to_released;
} ddr_request_statistics;

/* What came of a port's requests so far: how many it accepted, how many replies were taken, and how often a request was refused since
 * the port's window was full or, where that had room, the queue of the request's channel. Where a refused request is asked again in each round, these
 * two are the clocks that the port waited. */
typedef struct ddr_port_statistics {
    uint64_t accepted;
    uint64_t taken;
    uint64_t refused_for_window;
    uint64_t refused_for_queue;
    ddr_request_statistics reads;
    ddr_request_statistics writes;
} ddr_port_statistics;

/* The library, and the kit that it was proved with. */
#define DDR_VERSION "1.0"
#define DDR_KIT "rattle-kit-13f logic dac8208d650f15bf"

/* The library's own names, whose pointers must not be null. The calls below test that first. */
int32_t ddr_c_open(ddr_core *core, const uint8_t *text, size_t length, uint8_t *message, size_t room, uint64_t *whole);
int32_t ddr_c_open_without_traces(ddr_core *core, const uint8_t *text, size_t length, uint8_t *message, size_t room, uint64_t *whole);
int32_t ddr_c_read(ddr_core *core, uint32_t port, uint64_t addr, uint32_t length, uint64_t *number);
int32_t ddr_c_write(ddr_core *core, uint32_t port, uint64_t addr, const uint8_t *bytes, size_t length, uint64_t *number);
int32_t ddr_c_masked_write(ddr_core *core, uint32_t port, uint64_t addr, const uint8_t *line, size_t length, uint64_t enable, uint64_t *number);
int32_t ddr_c_quiet(ddr_core *core, uint64_t *rounds);
int32_t ddr_c_rounds(ddr_core *core, uint64_t count, uint64_t *made);
int32_t ddr_c_next(ddr_core *core, uint32_t port, ddr_reply *reply, uint8_t *buffer, size_t room);
int32_t ddr_c_served(ddr_core *core, uint32_t port, uint64_t number, ddr_reply *reply, uint8_t *buffer, size_t room);
int32_t ddr_c_counts(ddr_core *core, uint32_t port, uint64_t *accepted, uint64_t *taken);
int32_t ddr_c_cycle(ddr_core *core, uint32_t channel, uint64_t *cycle);
int32_t ddr_c_trace(ddr_core *core, uint32_t channel, uint64_t first, ddr_command *commands, size_t room, uint64_t *count);
int32_t ddr_c_shape(ddr_core *core, ddr_memory_shape *shape);
int32_t ddr_c_channel_numbers(ddr_core *core, uint32_t channel, ddr_channel_statistics *statistics);
int32_t ddr_c_port_numbers(ddr_core *core, uint32_t port, ddr_port_statistics *statistics);
int32_t ddr_c_close(ddr_core *core);

/* Opens a core from a configuration's text, of the `length` bytes at `text` (docs/FORMATS.md has its keys). Its clocks and
 * numbers begin at 0. Where the text is refused, the code is DDR_CONFIG, a sentence that says why is copied into the
 * `room` bytes at `message` as far as it fits, with no zero behind it, and its whole length is written to `whole`.
 * Also DDR_ALREADY_OPEN, DDR_NO_MEMORY. */
static inline int32_t ddr_open(ddr_core *core, const void *text, size_t length, char *message, size_t room, uint64_t *whole) {
    uint8_t none = 0;
    if (core == NULL || whole == NULL || (text == NULL && length != 0) || (message == NULL && room != 0)) return DDR_NULL;
    return ddr_c_open(core, text == NULL ? &none : (const uint8_t *)text, length, message == NULL ? &none : (uint8_t *)message, room, whole);
}

/* Opens a core as ddr_open does, but its channels keep no trace: a command that was issued takes no memory, so that a run of any length
 * takes no more than its rows do, of which one is kept once bytes are written to it. Replies, cycles and statistics are those of a core with traces. */
static inline int32_t ddr_open_without_traces(ddr_core *core, const void *text, size_t length, char *message, size_t room, uint64_t *whole) {
    uint8_t none = 0;
    if (core == NULL || whole == NULL || (text == NULL && length != 0) || (message == NULL && room != 0)) return DDR_NULL;
    return ddr_c_open_without_traces(core, text == NULL ? &none : (const uint8_t *)text, length, message == NULL ? &none : (uint8_t *)message, room, whole);
}

/* Asks a port to read `length` bytes from an address on, all in one 64-byte line, and writes the request's number, which
 * counts the port's accepted requests from 0. */
static inline int32_t ddr_submit_read(ddr_core *core, uint32_t port, uint64_t addr, uint32_t length, uint64_t *number) {
    if (core == NULL || number == NULL) return DDR_NULL;
    return ddr_c_read(core, port, addr, length, number);
}

/* Asks a port to write the `length` bytes at `bytes` from an address on, all in one 64-byte line. The bytes are copied. */
static inline int32_t ddr_submit_write(ddr_core *core, uint32_t port, uint64_t addr, const void *bytes, size_t length, uint64_t *number) {
    uint8_t none = 0;
    if (core == NULL || number == NULL || (bytes == NULL && length != 0)) return DDR_NULL;
    return ddr_c_write(core, port, addr, bytes == NULL ? &none : (const uint8_t *)bytes, length, number);
}

/* Asks a port to write to the 64-byte line that holds an address the bytes of `line` that are enabled: byte i where bit i
 * of `enable` is set. `length` must be 64, else DDR_TOO_SHORT. */
static inline int32_t ddr_submit_masked(ddr_core *core, uint32_t port, uint64_t addr, const void *line, size_t length, uint64_t enable, uint64_t *number) {
    if (core == NULL || line == NULL || number == NULL) return DDR_NULL;
    return ddr_c_masked_write(core, port, addr, (const uint8_t *)line, length, enable, number);
}

/* Writes for how many rounds nothing is to be done, as long as no request comes between; there may be more. */
static inline int32_t ddr_quiet(ddr_core *core, uint64_t *rounds) {
    if (core == NULL || rounds == NULL) return DDR_NULL;
    return ddr_c_quiet(core, rounds);
}

/* Makes `count` rounds. In a round each channel in turn takes what it has room for, makes a cycle and delivers what is done, and
 * then each port collects. Quiet rounds are made at once. Writes to `made` how many rounds were made whole, also at
 * DDR_CLOCK_SPENT and DDR_NO_MEMORY. There one more may be made in part: the channels before the one that was refused have
 * made its cycle, and that one has taken what it had room for. The call comes back once all of them are made, also where nothing
 * is left to do: refreshes go on, so 2^64 - 1 rounds end at cycle 2^62 alone, as DDR_CLOCK_SPENT. */
static inline int32_t ddr_rounds(ddr_core *core, uint64_t count, uint64_t *made) {
    if (core == NULL || made == NULL) return DDR_NULL;
    return ddr_c_rounds(core, count, made);
}

/* Takes the oldest reply of a port, in the order of the requests' numbers: writes its head, copies the bytes of a read to the
 * `room` bytes at `buffer`, and gives the reply up. 64 bytes are always enough. DDR_NOTHING where it is not ready.
 * At DDR_TOO_SHORT the head is written, whose `bytes` says how many are needed, and the reply stays. */
static inline int32_t ddr_next_reply(ddr_core *core, uint32_t port, ddr_reply *reply, void *buffer, size_t room) {
    uint8_t none = 0;
    if (core == NULL || reply == NULL || (buffer == NULL && room != 0)) return DDR_NULL;
    return ddr_c_next(core, port, reply, buffer == NULL ? &none : (uint8_t *)buffer, room);
}

/* Shows the reply to a port's request of this number once its data are there, or it is written, whether or not the replies before it are
 * ready: writes its head, and copies the bytes of a read to the `room` bytes at `buffer`, as ddr_next_reply does, but that the reply stays, and is taken
 * in its turn. `released` is the clock of this call. DDR_NOTHING where the request is not outstanding, or not served yet; DDR_TOO_SHORT as in
 * ddr_next_reply. */
static inline int32_t ddr_served(ddr_core *core, uint32_t port, uint64_t number, ddr_reply *reply, void *buffer, size_t room) {
    uint8_t none = 0;
    if (core == NULL || reply == NULL || (buffer == NULL && room != 0)) return DDR_NULL;
    return ddr_c_served(core, port, number, reply, buffer == NULL ? &none : (uint8_t *)buffer, room);
}

/* Writes how many requests a port accepted, and how many of its replies were taken. The others are outstanding. */
static inline int32_t ddr_counts(ddr_core *core, uint32_t port, uint64_t *accepted, uint64_t *taken) {
    if (core == NULL || accepted == NULL || taken == NULL) return DDR_NULL;
    return ddr_c_counts(core, port, accepted, taken);
}

/* Writes the next cycle of a channel. */
static inline int32_t ddr_cycle(ddr_core *core, uint32_t channel, uint64_t *cycle) {
    if (core == NULL || cycle == NULL) return DDR_NULL;
    return ddr_c_cycle(core, channel, cycle);
}

/* Copies commands of a channel in the order of their cycles, from the one of number `first` on, counted from 0, to the
 * `room` places at `commands`, and writes how many: 0 where there is none of that number. DDR_NO_TRACE where the core was opened without
 * traces. */
static inline int32_t ddr_trace(ddr_core *core, uint32_t channel, uint64_t first, ddr_command *commands, size_t room, uint64_t *count) {
    ddr_command none = {0, 0, 0, 0, 0, 0, 0};
    if (core == NULL || count == NULL || (commands == NULL && room != 0)) return DDR_NULL;
    return ddr_c_trace(core, channel, first, commands == NULL ? &none : commands, room, count);
}

/* Writes the shape of the memory and of its ports, as the configuration has it. */
static inline int32_t ddr_shape(ddr_core *core, ddr_memory_shape *shape) {
    if (core == NULL || shape == NULL) return DDR_NULL;
    return ddr_c_shape(core, shape);
}

/* Writes what a channel did so far. Each command is counted as it is issued, so that the call may be made at any time and often, and also where no
 * trace is kept. The cycles in which writes were drained are those of whole rounds. Also DDR_CLOCK_SPENT where the channel's clock has come to 2^62. */
static inline int32_t ddr_statistics_of_channel(ddr_core *core, uint32_t channel, ddr_channel_statistics *statistics) {
    if (core == NULL || statistics == NULL) return DDR_NULL;
    return ddr_c_channel_numbers(core, channel, statistics);
}

/* Writes what came of a port's requests so far. */
static inline int32_t ddr_statistics_of_port(ddr_core *core, uint32_t port, ddr_port_statistics *statistics) {
    if (core == NULL || statistics == NULL) return DDR_NULL;
    return ddr_c_port_numbers(core, port, statistics);
}

/* The name of a code, as enum ddr_code has it behind DDR_; "" where there is no such code. */
static inline const char *ddr_code_name(int32_t code) {
    static const char *const names[] = {"OK", "NULL", "CLOSED", "ALREADY_OPEN", "CONFIG", "NO_MEMORY", "NO_SUCH", "NOTHING", "TOO_SHORT", "FINISHED",
                                        "OUT_OF_RANGE", "EMPTY_LENGTH", "CROSSES_LINE", "SPENT", "WINDOW_FULL", "BUSY", "QUEUE_FULL", "CLOCK_SPENT",
                                        "NOT_EMPTY", "ILLEGAL", "NOT_JUDGED", "NO_TRACE"};
    return code >= 0 && (size_t)code < sizeof names / sizeof *names ? names[code] : "";
}

/* Closes a core, whatever is outstanding, and gives its memory back. It may be opened again. */
static inline int32_t ddr_close(ddr_core *core) {
    if (core == NULL) return DDR_NULL;
    return ddr_c_close(core);
}

#ifdef __cplusplus
}
#endif

#endif
