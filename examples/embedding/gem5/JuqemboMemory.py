# The memory's parameters, beside those of each memory of gem5. Its clock domain is the DRAM clock of the configuration, and its range
# is at most as long as the configuration's capacity.
from m5.objects.AbstractMemory import AbstractMemory
from m5.params import *


class JuqemboMemory(AbstractMemory):
    type = "JuqemboMemory"
    cxx_header = "juqembo_memory.hh"
    cxx_class = "gem5::memory::JuqemboMemory"

    port = ResponsePort("the port that requests come to")
    config = Param.String("the file with the configuration, as ./ddr takes it")
    atomic_latency = Param.Latency("50ns", "what an access takes in atomic mode, where the core isn't asked")
