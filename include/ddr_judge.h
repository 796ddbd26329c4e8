/*
 * Juqembo's judge as a library: it takes the commands of one channel of a DDR4 controller, one by one, and tells of each the lowest
 * rule that it breaks, and the earlier command that is to blame. Channels do not meet in any rule: open a judge for each.
 *
 * It lies in libddr.a beside the core, of which it needs nothing: `./build judge` makes a libddr.a with the judge alone.
 *
 * What C keeps, since nothing checks it: what ddr.h says of a ddr_core, of a ddr_judge too.
 *
 * Which commands count. A command is judged behind all commands before it that count, those that broke a rule among them, and then
 * counts itself, unless it breaks PLACE (there is no such rank, group, bank, row or column) or its cycle is not above that of the last
 * one that counts (ORDER): such a command is told of, and left out, since nothing can be said of where or when it was.
 *
 * No command asks for memory, and a judge takes as much as at first, however many come.
 */
#ifndef DDR_JUDGE_H
#define DDR_JUDGE_H

#include "ddr.h"

#include <inttypes.h>
#include <stdio.h>

#ifdef __cplusplus
extern "C" {
#endif

/* A judge of one channel, or none. Its fields are the library's. */
typedef struct ddr_judge {
    bool open;
    void *at;
} ddr_judge;

#define DDR_JUDGE_INIT {false, NULL}

/* The rules, in the order in which those that one command breaks are told. docs/FORMATS.md says what each wants. */
enum ddr_rule {
    DDR_RULE_ORDER = 1,
    DDR_RULE_PLACE = 2,
    DDR_RULE_STATE = 3,
    DDR_RULE_ROW = 4,
    DDR_RULE_RCD = 5,
    DDR_RULE_RAS = 6,
    DDR_RULE_RC = 7,
    DDR_RULE_RP = 8,
    DDR_RULE_RRD_L = 9,
    DDR_RULE_RRD_S = 10,
    DDR_RULE_FAW = 11,
    DDR_RULE_CCD_L = 12,
    DDR_RULE_CCD_S = 13,
    DDR_RULE_WTR_L = 14,
    DDR_RULE_WTR_S = 15,
    DDR_RULE_RTP = 16,
    DDR_RULE_WR = 17,
    DDR_RULE_RTW = 18,
    DDR_RULE_RP_REF = 19,
    DDR_RULE_RFC = 20,
    DDR_RULE_REF_LATE = 21,
    DDR_RULE_REF_GAP = 22,
    DDR_RULE_RTRS = 23
};

/* What a broken rule rests on, and what `found` and `wanted` are. Where no earlier command is to blame, `earlier.kind` is DDR_NONE. */
enum ddr_basis {
    DDR_NOT_KEPT = 0,           /* it may be a command that is no longer kept: at least the newest 4,096 that count are */
    DDR_TOO_CLOSE = 1,          /* clocks behind `earlier`, and the least that are wanted */
    DDR_TOO_CLOSE_TO_START = 2, /* clocks behind the start of the auto-precharge of `earlier`, and the least that are wanted */
    DDR_BANK_STATE = 3,         /* the bank is not as the command wants it; `earlier` changed it last, if one did. Both 0 */
    DDR_NOT_ABOVE = 4,          /* the cycle is not above that of `earlier`. Both 0 */
    DDR_BEFORE_START = 5,       /* the cycle is before the first one. Both 0 */
    DDR_NOT_BEFORE_END = 6,     /* no call of this library answers it */
    DDR_OUTSIDE = 7,            /* the number that is outside, and what it is to be below; a column counts in bursts of 8 */
    DDR_TOO_FAR = 8,            /* clocks behind `earlier`, the REF before, and the most that are wanted */
    DDR_LATE = 9                /* REFs of the rank so far, and the cycle by which the next one was due */
};

typedef struct ddr_fault {
    uint64_t place; /* how many commands counted before it */
    uint64_t cycle;
    uint32_t rule;  /* of enum ddr_rule */
    uint32_t basis; /* of enum ddr_basis */
    ddr_command earlier;
    uint64_t earlier_place; /* how many commands counted before the earlier one */
    uint64_t found;
    uint64_t wanted;
} ddr_fault;

/* The library's own names, whose pointers must not be null. The calls below test that first. */
int32_t ddr_c_judge_open(ddr_judge *judge, const uint8_t *text, size_t length, uint64_t start, uint8_t *message, size_t room, uint64_t *whole);
int32_t ddr_c_judge_command(ddr_judge *judge, const ddr_command *command, ddr_fault *fault);
int32_t ddr_c_judge_end(ddr_judge *judge, uint64_t end);
int32_t ddr_c_judge_close(ddr_judge *judge);

/* Opens a judge from a configuration's text, of the `length` bytes at `text` (docs/FORMATS.md has its keys), for commands from the
 * cycle `start` on: the deadlines of refreshes count from there. A refusal is told as ddr_open tells it.
 * Also DDR_ALREADY_OPEN, DDR_NO_MEMORY. */
static inline int32_t ddr_judge_open(ddr_judge *judge, const void *text, size_t length, uint64_t start, char *message, size_t room, uint64_t *whole) {
    uint8_t none = 0;
    if (judge == NULL || whole == NULL || (text == NULL && length != 0) || (message == NULL && room != 0)) return DDR_NULL;
    return ddr_c_judge_open(judge, text == NULL ? &none : (const uint8_t *)text, length, start, message == NULL ? &none : (uint8_t *)message, room, whole);
}

/* Judges the channel's next command: DDR_OK where it breaks no rule, or DDR_ILLEGAL, and writes the lowest rule that it breaks and what
 * that rests on. A read or a write names its row; of its column the low three digits, the order in a burst, are left out. Numbers that the
 * command does not name are not looked at.
 * DDR_NOT_JUDGED for DDR_MRS to DDR_RFU, of which the rules do not speak, and DDR_NO_SUCH for a kind that there is not: neither counts.
 * DDR_CLOCK_SPENT for a cycle from 2^62 on, DDR_SPENT where 2^62 commands count. */
static inline int32_t ddr_judge_command(ddr_judge *judge, const ddr_command *command, ddr_fault *fault) {
    if (judge == NULL || command == NULL || fault == NULL) return DDR_NULL;
    return ddr_c_judge_command(judge, command, fault);
}

/* Tells whether a trace that ends in the cycle `end` ends behind the deadline of a rank's next REF: DDR_ILLEGAL, which is REF_LATE, or
 * DDR_OK. It may be asked at any time, and ends nothing. */
static inline int32_t ddr_judge_end(ddr_judge *judge, uint64_t end) {
    if (judge == NULL) return DDR_NULL;
    return ddr_c_judge_end(judge, end);
}

/* Closes a judge and gives its memory back. It may be opened again. */
static inline int32_t ddr_judge_close(ddr_judge *judge) {
    if (judge == NULL) return DDR_NULL;
    return ddr_c_judge_close(judge);
}

/* The name of a rule, as reports print it; "" of a number that is none. */
static inline const char *ddr_rule_name(uint32_t rule) {
    static const char *const names[] = {"",      "ORDER", "PLACE", "STATE", "ROW",   "RCD", "RAS", "RC",  "RP",     "RRD_L", "RRD_S",    "FAW",
                                        "CCD_L", "CCD_S", "WTR_L", "WTR_S", "RTP",   "WR",  "RTW", "RP_REF", "RFC", "REF_LATE", "REF_GAP", "RTRS"};
    return rule < sizeof names / sizeof *names ? names[rule] : "";
}

/* The name of a kind of command; "no command" where there is no such kind. */
static inline const char *ddr_command_name(uint32_t kind) {
    static const char *const names[] = {"ACT",  "RD",   "WR",  "RDA", "WRA", "PRE", "PREA", "REF", "MRS",
                                        "ZQCS", "ZQCL", "NOP", "DES", "PDE", "PDX", "SRE",  "SRX", "RFU"};
    return kind < sizeof names / sizeof *names ? names[kind] : "no command";
}

/* What stands in ddr_fault_text behind the rule's name. */
static inline int ddr_fault_basis(const ddr_fault *fault, char *text, size_t room) {
    const char *earlier = ddr_command_name(fault->earlier.kind);
    const uint64_t cycle = fault->earlier.cycle, found = fault->found, wanted = fault->wanted;
    switch (fault->basis) {
        case DDR_TOO_CLOSE:
            return snprintf(text, room, ": it is %" PRIu64 " clocks behind %s at cycle %" PRIu64 ", and is to be at least %" PRIu64, found, earlier, cycle, wanted);
        case DDR_TOO_CLOSE_TO_START:
            return snprintf(text, room, ": it is %" PRIu64 " clocks behind the auto-precharge of %s at cycle %" PRIu64 ", and is to be at least %" PRIu64, found, earlier, cycle, wanted);
        case DDR_BANK_STATE:
            if (fault->earlier.kind == DDR_NONE) return snprintf(text, room, ": nothing opened its bank");
            return snprintf(text, room, ": %s at cycle %" PRIu64 " changed the bank last", earlier, cycle);
        case DDR_NOT_ABOVE: return snprintf(text, room, ": it is not behind %s at cycle %" PRIu64, earlier, cycle);
        case DDR_BEFORE_START: return snprintf(text, room, ": it is before the first cycle");
        case DDR_OUTSIDE: return snprintf(text, room, ": there is %" PRIu64 " where less than %" PRIu64 " is wanted", found, wanted);
        case DDR_TOO_FAR: return snprintf(text, room, ": it is %" PRIu64 " clocks behind the REF at cycle %" PRIu64 ", and is to be at most %" PRIu64, found, cycle, wanted);
        case DDR_LATE: return snprintf(text, room, ": behind %" PRIu64 " REFs the next one was due by cycle %" PRIu64, found, wanted);
        default: return snprintf(text, room, ": what it rests on may be a command that is no longer kept");
    }
}

/* Writes a sentence on a fault of a command, with a zero behind it, to the `room` bytes at `text`, as far as it fits, and answers its whole
 * length, as snprintf does; 160 bytes hold every one. */
static inline int ddr_fault_text(const ddr_command *command, const ddr_fault *fault, char *text, size_t room) {
    const int head = snprintf(text, room, "%s at cycle %" PRIu64 " breaks %s", ddr_command_name(command->kind), command->cycle, ddr_rule_name(fault->rule));
    const size_t written = (size_t)head < room ? (size_t)head : room;
    return head + ddr_fault_basis(fault, room == 0 ? text : text + written, room - written);
}

#ifdef __cplusplus
}
#endif

#endif
