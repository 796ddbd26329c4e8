/*
 * The statistics of a core as a TOML document, with the keys of what `ddr replay` prints, over the calls of ddr.h.
 *
 * A port's `accepted` and `taken` stand in place of the requests of a stream, and the tables of how long requests took have the
 * percentiles of a replay's numbers, and no histogram.
 */
#ifndef DDR_STATISTICS_H
#define DDR_STATISTICS_H

#include "ddr.h"

#include <inttypes.h>
#include <stdio.h>

/* The keys of a channel's table. */
static inline void ddr_print_channel(FILE *file, const ddr_channel_statistics *it) {
    fprintf(file, "turn_rounds = %" PRIu64 "\nrank_switches = %" PRIu64 "\ndrain_cycles = %" PRIu64 "\nrefresh_debt_most = %" PRIu64 "\nactivates = %" PRIu64 "\nprecharges = %" PRIu64 "\n",
            it->turn_rounds, it->rank_switches, it->drain_cycles, it->refresh_debt_most, it->activates, it->precharges);
    fprintf(file, "precharges_all = %" PRIu64 "\nrefreshes = %" PRIu64 "\nreads = %" PRIu64 "\nwrites = %" PRIu64 "\nreads_auto = %" PRIu64 "\nwrites_auto = %" PRIu64 "\n",
            it->precharges_all, it->refreshes, it->reads, it->writes, it->reads_auto, it->writes_auto);
    fprintf(file, "row_hits = %" PRIu64 "\nrow_misses = %" PRIu64 "\nrow_conflicts = %" PRIu64 "\nbusy_clocks = %" PRIu64 "\n", it->row_hits, it->row_misses,
            it->row_conflicts, it->busy_clocks);
}

/* The table of how long some requests of a port took. */
static inline void ddr_print_spread(FILE *file, uint32_t port, const char *kind, const char *span, const ddr_spread *it) {
    fprintf(file, "\n[port.%" PRIu32 ".%s.%s]\ncount = %" PRIu64 "\nclocks = %" PRIu64 "\nleast = %" PRIu64 "\nmost = %" PRIu64 "\n", port, kind, span, it->count,
            it->clocks, it->least, it->most);
    fprintf(file, "p50_at_most = %" PRIu64 "\np90_at_most = %" PRIu64 "\np99_at_most = %" PRIu64 "\np999_at_most = %" PRIu64 "\n", it->p50_at_most, it->p90_at_most,
            it->p99_at_most, it->p999_at_most);
}

static inline void ddr_print_requests(FILE *file, uint32_t port, const char *kind, const ddr_request_statistics *it) {
    ddr_print_spread(file, port, kind, "accepted_to_issued", &it->accepted_to_issued);
    ddr_print_spread(file, port, kind, "accepted_to_done", &it->accepted_to_done);
    ddr_print_spread(file, port, kind, "accepted_to_released", &it->accepted_to_released);
}

/* Writes the document to a file: how many channels and ports there are and how many cycles were made, a table for each channel and each port, and
 * behind them, for each port, the tables of how long its reads and writes took. The code is that of the first call that answered another than DDR_OK,
 * behind what was written before it; whether all could be written, ferror tells. */
static inline int32_t ddr_print_statistics(ddr_core *core, FILE *file) {
    ddr_memory_shape shape;
    ddr_channel_statistics channel;
    ddr_port_statistics port;
    uint64_t cycle;
    uint32_t i;
    int32_t code;
    if (file == NULL) return DDR_NULL;
    if ((code = ddr_shape(core, &shape)) != DDR_OK || (code = ddr_cycle(core, 0, &cycle)) != DDR_OK) return code;
    fprintf(file, "channels = %" PRIu32 "\nports = %" PRIu32 "\ncycles = %" PRIu64 "\n", shape.channels, shape.ports, cycle);
    for (i = 0; i < shape.channels; i++) {
        if ((code = ddr_statistics_of_channel(core, i, &channel)) != DDR_OK) return code;
        fprintf(file, "\n[channel.%" PRIu32 "]\n", i);
        ddr_print_channel(file, &channel);
    }
    for (i = 0; i < shape.ports; i++) {
        if ((code = ddr_statistics_of_port(core, i, &port)) != DDR_OK) return code;
        fprintf(file, "\n[port.%" PRIu32 "]\naccepted = %" PRIu64 "\ntaken = %" PRIu64 "\nrefused_for_window = %" PRIu64 "\nrefused_for_queue = %" PRIu64 "\n", i,
                port.accepted, port.taken, port.refused_for_window, port.refused_for_queue);
    }
    for (i = 0; i < shape.ports; i++) {
        if ((code = ddr_statistics_of_port(core, i, &port)) != DDR_OK) return code;
        ddr_print_requests(file, i, "read", &port.reads);
        ddr_print_requests(file, i, "write", &port.writes);
    }
    return DDR_OK;
}

#endif
