/* The judge as C calls it.
 *
 *   judge wrong CONFIG          each call with arguments that it refuses, and faults whose numbers are reckoned by hand
 *   judge table CONFIG < TRACE  of each command of a trace that breaks a rule the lowest one, in the fields of `ddr check --all` from
 *                               `line` to `cmd` and from `rule` on; of lines that count
 *   judge speed CONFIG COUNT    so many commands that break none, and how long that took
 */
#include "ddr_judge.h"

#include <inttypes.h>
#include <stdio.h>
#include <stdlib.h>
#include <string.h>
#include <time.h>

static char text[1 << 16];
static size_t length;
static unsigned failed;

static void wants(const char *what, int64_t got, int64_t wanted) {
    if (got == wanted) return;
    printf("%s: %lld, wanted %lld\n", what, (long long)got, (long long)wanted);
    failed++;
}

static ddr_command of(uint64_t cycle, uint32_t kind, uint32_t group, uint32_t bank, uint32_t row, uint32_t column) {
    ddr_command command = {cycle, kind, 0, group, bank, row, column};
    return command;
}

/* What a null pointer answers. */
static void nulls(void) {
    ddr_judge judge = DDR_JUDGE_INIT;
    ddr_command command = of(0, DDR_ACT, 0, 0, 0, 0);
    ddr_fault fault = {0};
    uint64_t n = 7;
    wants("open, no judge", ddr_judge_open(NULL, text, length, 0, NULL, 0, &n), DDR_NULL);
    wants("open, no text", ddr_judge_open(&judge, NULL, length, 0, NULL, 0, &n), DDR_NULL);
    wants("open, no message", ddr_judge_open(&judge, text, length, 0, NULL, 1, &n), DDR_NULL);
    wants("open, no length", ddr_judge_open(&judge, text, length, 0, NULL, 0, NULL), DDR_NULL);
    wants("command, no judge", ddr_judge_command(NULL, &command, &fault), DDR_NULL);
    wants("command, no command", ddr_judge_command(&judge, NULL, &fault), DDR_NULL);
    wants("command, no fault", ddr_judge_command(&judge, &command, NULL), DDR_NULL);
    wants("end, no judge", ddr_judge_end(NULL, 0), DDR_NULL);
    wants("close, no judge", ddr_judge_close(NULL), DDR_NULL);
    wants("untouched", (int64_t)n, 7);
}

/* What a closed judge answers. */
static void closed(ddr_judge *judge) {
    ddr_command command = of(0, DDR_ACT, 0, 0, 0, 0);
    ddr_fault fault = {.place = 7};
    wants("closed command", ddr_judge_command(judge, &command, &fault), DDR_CLOSED);
    wants("closed end", ddr_judge_end(judge, 0), DDR_CLOSED);
    wants("closed close", ddr_judge_close(judge), DDR_CLOSED);
    wants("closed, untouched", fault.place == 7, 1);
}

/* What is refused of an open one, and counts for nothing. */
static void refused(ddr_judge *judge) {
    ddr_fault fault = {.place = 7};
    uint64_t n = 7;
    wants("opened twice", ddr_judge_open(judge, text, length, 0, NULL, 0, &n), DDR_ALREADY_OPEN);
    wants("no whole length", (int64_t)n, 7);
    for (uint32_t kind = DDR_MRS; kind <= DDR_RFU; kind++) {
        ddr_command command = of(1, kind, 0, 0, 0, 0);
        wants("a command that the rules do not speak of", ddr_judge_command(judge, &command, &fault), DDR_NOT_JUDGED);
    }
    ddr_command none = of(1, DDR_RFU + 1, 0, 0, 0, 0);
    wants("no kind", ddr_judge_command(judge, &none, &fault), DDR_NO_SUCH);
    none.kind = DDR_NONE;
    wants("no kind at all", ddr_judge_command(judge, &none, &fault), DDR_NO_SUCH);
    ddr_command late = of((uint64_t)1 << 62, DDR_ACT, 0, 0, 0, 0);
    wants("no cycle", ddr_judge_command(judge, &late, &fault), DDR_CLOCK_SPENT);
    late.cycle = UINT64_MAX;
    wants("no cycle at all", ddr_judge_command(judge, &late, &fault), DDR_CLOCK_SPENT);
    wants("refused, untouched", fault.place == 7 && n == 7, 1);
}

/* A text that is no configuration. */
static void unread(void) {
    ddr_judge judge = DDR_JUDGE_INIT;
    char message[8] = "0123456";
    uint64_t n = 0;
    wants("no table", ddr_judge_open(&judge, "\xff", 1, 0, message, 3, &n), DDR_CONFIG);
    wants("its length", (int64_t)n, (int64_t)strlen("the configuration is not UTF-8"));
    wants("its text, as far as it fits", memcmp(message, "the3456", 8), 0);
    wants("not opened", ddr_judge_close(&judge), DDR_CLOSED);
}

static void says(const char *got, const char *wanted) {
    if (strcmp(got, wanted) == 0) return;
    printf("%s, wanted %s\n", got, wanted);
    failed++;
}

/* The sentence on a fault, whole and as far as it fits. */
static void told(const ddr_command *command, const ddr_fault *fault, const char *said) {
    char sentence[160], piece[3] = "..";
    wants("the sentence's length", ddr_fault_text(command, fault, sentence, sizeof sentence), (int64_t)strlen(said));
    says(sentence, said);
    wants("its length, where it doesn't fit", ddr_fault_text(command, fault, piece, sizeof piece), (int64_t)strlen(said));
    wants("as far as it fits", piece[0] == said[0] && piece[1] == said[1] && piece[2] == 0, 1);
    wants("its length, with no room", ddr_fault_text(command, fault, NULL, 0), (int64_t)strlen(said));
}

static void faulty(ddr_judge *judge, ddr_command command, uint32_t rule, uint32_t basis, uint64_t earlier, uint64_t found, uint64_t wanted, const char *said) {
    ddr_fault fault = {0};
    wants("broken", ddr_judge_command(judge, &command, &fault), DDR_ILLEGAL);
    wants("its cycle", (int64_t)fault.cycle, (int64_t)command.cycle);
    wants("its rule", fault.rule, rule);
    wants("its basis", fault.basis, basis);
    if (earlier == UINT64_MAX) wants("no earlier command", fault.earlier.kind, DDR_NONE);
    else wants("the earlier cycle", (int64_t)fault.earlier.cycle, (int64_t)earlier);
    wants("found", (int64_t)fault.found, (int64_t)found);
    wants("wanted", (int64_t)fault.wanted, (int64_t)wanted);
    told(&command, &fault, said);
}

static void legal(ddr_judge *judge, ddr_command command) {
    ddr_fault fault = {.place = 7};
    wants("kept", ddr_judge_command(judge, &command, &fault), DDR_OK);
    wants("untouched", fault.place == 7, 1);
}

/* Profile S: RCD 4, CWL 3 and WTR_L 4, so that a read stands 3 + 4 + 4 clocks behind a write of its group; REFI 200; 4 groups. */
static void faults(ddr_judge *judge) {
    legal(judge, of(100, DDR_ACT, 0, 0, 0, 0));
    faulty(judge, of(103, DDR_WR, 0, 0, 0, 8), DDR_RULE_RCD, DDR_TOO_CLOSE, 100, 3, 4,
           "WR at cycle 103 breaks RCD: it is 3 clocks behind ACT at cycle 100, and is to be at least 4");
    /* The write counts, though it is a fault. */
    faulty(judge, of(113, DDR_RD, 0, 0, 0, 8), DDR_RULE_WTR_L, DDR_TOO_CLOSE, 103, 10, 11,
           "RD at cycle 113 breaks WTR_L: it is 10 clocks behind WR at cycle 103, and is to be at least 11");
    faulty(judge, of(130, DDR_RD, 0, 0, 1, 8), DDR_RULE_ROW, DDR_BANK_STATE, 100, 0, 0,
           "RD at cycle 130 breaks ROW: ACT at cycle 100 changed the bank last");
    faulty(judge, of(140, DDR_ACT, 0, 0, 1, 0), DDR_RULE_STATE, DDR_BANK_STATE, 100, 0, 0,
           "ACT at cycle 140 breaks STATE: ACT at cycle 100 changed the bank last");
    /* No such group, and a cycle that is not above the last one: both are left out. */
    faulty(judge, of(150, DDR_ACT, 4, 0, 1, 0), DDR_RULE_PLACE, DDR_OUTSIDE, UINT64_MAX, 4, 4,
           "ACT at cycle 150 breaks PLACE: there is 4 where less than 4 is wanted");
    faulty(judge, of(140, DDR_ACT, 1, 0, 1, 0), DDR_RULE_ORDER, DDR_NOT_ABOVE, 140, 0, 0,
           "ACT at cycle 140 breaks ORDER: it is not behind ACT at cycle 140");
    legal(judge, of(145, DDR_ACT, 1, 1, 1, 0));
    faulty(judge, of(150, DDR_RD, 2, 0, 0, 0), DDR_RULE_STATE, DDR_BANK_STATE, UINT64_MAX, 0, 0,
           "RD at cycle 150 breaks STATE: nothing opened its bank");
    /* With no REF from 90 on, the first one is due by 90 + 9 * 200. */
    wants("ends in time", ddr_judge_end(judge, 1890), DDR_OK);
    wants("ends late", ddr_judge_end(judge, 1891), DDR_ILLEGAL);
}

/* Behind so many reads that what came before them is let go: the lowest rule is told still, what it rests on where the newest commands tell it.
 * Of the second bank, whose ACT isn't kept, nothing is told until another ACT of it counts, at fault itself. */
static void long_run(ddr_judge *judge) {
    legal(judge, of(100, DDR_ACT, 0, 0, 0, 0));
    legal(judge, of(120, DDR_ACT, 1, 0, 0, 0));
    for (uint64_t i = 0; i < 9000; i++) legal(judge, of(200 + 20 * i, DDR_RD, 0, 0, 0, 8));
    faulty(judge, of(180200, DDR_RD, 1, 0, 1, 8), DDR_RULE_ROW, DDR_NOT_KEPT, UINT64_MAX, 0, 0,
           "RD at cycle 180200 breaks ROW: what it rests on may be a command that is no longer kept");
    faulty(judge, of(180220, DDR_ACT, 1, 0, 1, 0), DDR_RULE_STATE, DDR_NOT_KEPT, UINT64_MAX, 0, 0,
           "ACT at cycle 180220 breaks STATE: what it rests on may be a command that is no longer kept");
    faulty(judge, of(180240, DDR_RD, 1, 0, 0, 8), DDR_RULE_ROW, DDR_BANK_STATE, 180220, 0, 0,
           "RD at cycle 180240 breaks ROW: ACT at cycle 180220 changed the bank last");
    faulty(judge, of(180260, DDR_ACT, 1, 0, 0, 0), DDR_RULE_STATE, DDR_BANK_STATE, 180220, 0, 0,
           "ACT at cycle 180260 breaks STATE: ACT at cycle 180220 changed the bank last");
    faulty(judge, of(180260, DDR_RD, 0, 0, 0, 8), DDR_RULE_ORDER, DDR_NOT_ABOVE, 180260, 0, 0,
           "RD at cycle 180260 breaks ORDER: it is not behind ACT at cycle 180260");
    faulty(judge, of(180280, DDR_ACT, 4, 0, 1, 0), DDR_RULE_PLACE, DDR_OUTSIDE, UINT64_MAX, 4, 4,
           "ACT at cycle 180280 breaks PLACE: there is 4 where less than 4 is wanted");
}

static int wrong(void) {
    ddr_judge judge = DDR_JUDGE_INIT;
    uint64_t n = 0;
    nulls();
    closed(&judge);
    unread();
    wants("open", ddr_judge_open(&judge, text, length, 90, NULL, 0, &n), DDR_OK);
    refused(&judge);
    faulty(&judge, of(80, DDR_ACT, 3, 3, 0, 0), DDR_RULE_ORDER, DDR_BEFORE_START, UINT64_MAX, 0, 0,
           "ACT at cycle 80 breaks ORDER: it is before the first cycle");
    faults(&judge);
    wants("close", ddr_judge_close(&judge), DDR_OK);
    closed(&judge);
    wants("open anew", ddr_judge_open(&judge, text, length, 0, NULL, 0, &n), DDR_OK);
    long_run(&judge);
    wants("and close", ddr_judge_close(&judge), DDR_OK);
    wants("the name", strcmp(ddr_rule_name(DDR_RULE_RTRS), "RTRS") | strcmp(ddr_rule_name(24), ""), 0);
    return failed != 0;
}

static const char *const names[] = {"ACT", "RD", "WR", "RDA", "WRA", "PRE", "PREA", "REF"};

/* A field of a line, the number behind a comma; DDR_NONE where it is empty. */
static uint32_t field(char **at) {
    if (**at == ',') ++*at;
    if (**at < '0' || **at > '9') return DDR_NONE;
    return (uint32_t)strtoul(*at, at, 10);
}

/* Reads the command of a trace's line, or the trace's end. */
static int read_line(char *line, ddr_command *command) {
    char *at = line, name[8] = "";
    size_t n = 0;
    command->cycle = strtoull(at, &at, 10);
    for (++at; *at != ',' && n < sizeof name - 1; ++at) name[n++] = *at;
    for (command->kind = 0; command->kind < 8 && strcmp(name, names[command->kind]) != 0; command->kind++);
    command->rank = field(&at);
    command->group = field(&at);
    command->bank = field(&at);
    command->row = field(&at);
    command->column = field(&at);
    return command->kind < 8;
}

static void print_fault(uint64_t line, const ddr_command *command, const ddr_fault *fault) {
    printf("%" PRIu64 ",%" PRIu64 ",%s,%s,", line, command->cycle, names[command->kind], ddr_rule_name(fault->rule));
    if (fault->earlier.kind != DDR_NONE) printf("%" PRIu64 ",%" PRIu64, fault->earlier_place + 2, fault->earlier.cycle);
    else printf(",");
    int pair = fault->basis == DDR_TOO_CLOSE || fault->basis == DDR_TOO_CLOSE_TO_START;
    if (pair || fault->basis == DDR_TOO_FAR) printf(",%" PRIu64, fault->found);
    else printf(",");
    if (pair) printf(",%" PRIu64, fault->wanted);
    else printf(",");
    printf("%s\n", fault->basis == DDR_NOT_KEPT ? " not kept" : "");
}

static int table(void) {
    ddr_judge judge = DDR_JUDGE_INIT;
    char line[256];
    uint64_t n = 0, place = 2;
    ddr_command command;
    ddr_fault fault;
    if (ddr_judge_open(&judge, text, length, 0, NULL, 0, &n) != DDR_OK || fgets(line, sizeof line, stdin) == NULL) return 2;
    while (fgets(line, sizeof line, stdin) != NULL) {
        if (!read_line(line, &command)) break;
        int32_t code = ddr_judge_command(&judge, &command, &fault);
        if (code == DDR_ILLEGAL) print_fault(place, &command, &fault);
        else if (code != DDR_OK) return 2;
        place++;
    }
    if (ddr_judge_end(&judge, command.cycle) == DDR_ILLEGAL) printf("%" PRIu64 ",%" PRIu64 ",END,REF_LATE,,,,\n", place, command.cycle);
    return ddr_judge_close(&judge) != DDR_OK;
}

/* An ACT, a read and a PRE by turns, 40 clocks apart, of the banks in turn, and a REF of rank 0 in place of each eighth. */
static int speed(uint64_t count) {
    ddr_judge judge = DDR_JUDGE_INIT;
    uint64_t n = 0, broken = 0;
    ddr_fault fault;
    if (ddr_judge_open(&judge, text, length, 0, NULL, 0, &n) != DDR_OK) return 2;
    clock_t start = clock();
    for (uint64_t i = 0; i < count; i++) {
        static const uint32_t turn[] = {DDR_ACT, DDR_RD, DDR_PRE, DDR_REF};
        uint32_t bank = (uint32_t)(i / 4 % 8);
        ddr_command command = of(50 * i, turn[i % 4], bank / 4, bank % 4, (uint32_t)(i / 32 % 16), 0);
        broken += ddr_judge_command(&judge, &command, &fault) != DDR_OK;
    }
    double seconds = (double)(clock() - start) / CLOCKS_PER_SEC;
    printf("%" PRIu64 " commands, %" PRIu64 " at fault, %.0f ns each\n", count, broken, seconds * 1e9 / (double)count);
    return ddr_judge_close(&judge) != DDR_OK || broken != 0;
}

int main(int argc, char **argv) {
    FILE *file = argc >= 3 ? fopen(argv[2], "rb") : NULL;
    if (file == NULL) return 2;
    length = fread(text, 1, sizeof text, file);
    fclose(file);
    if (strcmp(argv[1], "wrong") == 0) return wrong();
    if (strcmp(argv[1], "table") == 0) return table();
    return argc == 4 ? speed(strtoull(argv[3], NULL, 10)) : 2;
}
