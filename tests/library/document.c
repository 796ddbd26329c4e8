/* Prints the statistics of a core that read once, made 500 rounds, and had its reply taken. */
#include "ddr_statistics.h"

int main(int argc, char **argv) {
    static char text[1 << 16];
    FILE *file = argc == 2 ? fopen(argv[1], "rb") : NULL;
    if (file == NULL) return 2;
    const size_t length = fread(text, 1, sizeof text, file);
    fclose(file);
    ddr_core core = DDR_CORE_INIT;
    ddr_reply reply;
    uint8_t bytes[64];
    uint64_t n;
    if (ddr_print_statistics(&core, NULL) != DDR_NULL || ddr_print_statistics(NULL, stdout) != DDR_NULL) return 1;
    if (ddr_print_statistics(&core, stdout) != DDR_CLOSED) return 1;
    if (ddr_open(&core, text, length, NULL, 0, &n) != DDR_OK || ddr_submit_read(&core, 0, 64, 4, &n) != DDR_OK) return 1;
    if (ddr_rounds(&core, 500, &n) != DDR_OK || ddr_next_reply(&core, 0, &reply, bytes, sizeof bytes) != DDR_OK) return 1;
    if (ddr_print_statistics(&core, stdout) != DDR_OK) return 1;
    return ddr_close(&core) == DDR_OK ? 0 : 1;
}
