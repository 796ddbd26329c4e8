/* What the imports of ddr_pkg.sv are answered by. A simulator compiles it beside the modules, and links libddr.a. */
#include "ddr_judge.h"

#include <stdlib.h>

typedef struct watched {
    ddr_judge judge;
    char message[512];
} watched;

static char refusal[512];

#ifdef __cplusplus
extern "C" {
#endif

void *ddr_dpi_open(const char *file, uint64_t start, const char **message);
int ddr_dpi_command(void *judge, uint64_t cycle, uint32_t kind, uint32_t rank, uint32_t group, uint32_t bank, uint32_t row, uint32_t column, const char **message);
int ddr_dpi_end(void *judge, uint64_t cycle);
void ddr_dpi_close(void *judge);

void *ddr_dpi_open(const char *file, uint64_t start, const char **message) {
    static char text[1 << 16];
    *message = refusal;
    FILE *opened = fopen(file, "rb");
    if (opened == NULL) {
        snprintf(refusal, sizeof refusal, "%s can't be read", file);
        return NULL;
    }
    size_t length = fread(text, 1, sizeof text, opened);
    fclose(opened);
    watched *it = (watched *)calloc(1, sizeof *it);
    if (it == NULL) return NULL;
    uint64_t whole = 0;
    int32_t code = ddr_judge_open(&it->judge, text, length, start, refusal, sizeof refusal - 1, &whole);
    if (code == DDR_OK) return it;
    free(it);
    if (code == DDR_CONFIG) refusal[whole < sizeof refusal ? whole : sizeof refusal - 1] = 0;
    else snprintf(refusal, sizeof refusal, "code %d", (int)code);
    return NULL;
}

int ddr_dpi_command(void *judge, uint64_t cycle, uint32_t kind, uint32_t rank, uint32_t group, uint32_t bank, uint32_t row, uint32_t column, const char **message) {
    watched *it = (watched *)judge;
    ddr_command command = {cycle, kind, rank, group, bank, row, column};
    ddr_fault fault;
    int32_t code = ddr_judge_command(&it->judge, &command, &fault);
    *message = it->message;
    it->message[0] = 0;
    if (code == DDR_ILLEGAL) ddr_fault_text(&command, &fault, it->message, sizeof it->message);
    else if (code == DDR_NOT_JUDGED) snprintf(it->message, sizeof it->message, "%s at cycle %" PRIu64 " is not judged", ddr_command_name(kind), cycle);
    else if (code != DDR_OK) snprintf(it->message, sizeof it->message, "code %d at cycle %" PRIu64, (int)code, cycle);
    return code;
}

int ddr_dpi_end(void *judge, uint64_t cycle) { return ddr_judge_end(&((watched *)judge)->judge, cycle); }

void ddr_dpi_close(void *judge) {
    ddr_judge_close(&((watched *)judge)->judge);
    free(judge);
}

#ifdef __cplusplus
}
#endif
