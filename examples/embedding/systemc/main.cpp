// Three memories in one SystemC simulation, each with an initiator that checks each byte that it reads against its own copy:
//
//     systemc CONFIG COUNT FOLDER
//
// `prompt` and `slow` ask by the phases of nb_transport, COUNT times each, and `slow` takes its time with the ends of its responses; `blocking`
// asks by b_transport from three threads, COUNT times from each. Of each the folder gets what it asked and when that was served:
// NAME.requests and NAME.times. `./ddr replay --requests` of the first prints the second, with one column more; of `slow` the
// column `released` isn't the same, since there replies wait for their responses. All go to port 0, but the last to port 1.
#include "calls.h"
#include "phases.h"

#include <iostream>
#include <iterator>

namespace {

int run(const std::string &config, std::uint64_t count, const std::string &folder) {
    const sc_core::sc_time period(833, sc_core::SC_PS);
    Record prompt_record(folder, "prompt", 0), slow_record(folder, "slow", 0), blocking_record(folder, "blocking", 1);
    ddr::Target<> prompt_memory("prompt_memory", config, period), slow_memory("slow_memory", config, period);
    ddr::Target<> blocking_memory("blocking_memory", config, period, 1);
    Phases prompt("prompt", prompt_memory, period, count, false, prompt_record);
    Phases slow("slow", slow_memory, period, count, true, slow_record);
    Calls blocking("blocking", blocking_memory, period, count, blocking_record);
    sc_core::sc_start();

    expect(prompt.is_done() && slow.is_done() && blocking.is_done(), "all to be done");
    const std::uint64_t cycles = sc_core::sc_time_stamp().value() / period.value();
    for (ddr::Target<> *memory : {&prompt_memory, &slow_memory, &blocking_memory})
        expect(memory->under().cycle(0) == cycles, "as many cycles as periods");
    const std::uint64_t requests = prompt_record.count() + slow_record.count() + blocking_record.count();
    std::cout << requests << " requests in " << cycles << " cycles, with all bytes right\n";
    return 0;
}

} // namespace

int sc_main(int argc, char **argv) {
    std::ifstream file(argc == 4 ? argv[1] : "");
    if (!file) {
        std::cerr << "usage: " << argv[0] << " CONFIG COUNT FOLDER\n";
        return 2;
    }
    const std::string config{std::istreambuf_iterator<char>(file), {}};
    try {
        return run(config, std::stoull(argv[2]), argv[3]);
    } catch (const std::exception &error) {
        std::cerr << error.what() << '\n';
        return 1;
    }
}
