#!/usr/bin/python3
"""So many blocks in a row as a flow graph of GNU Radio, of which the last one puts the running sum of what it gets and the others pass on what
comes. Items are floats of 32 bits there, and what a block had when it failed is gone. Written for the comparison alone.

usage: main.py COUNT INPUTS     (writes "o: .." as kahnrun does; to standard error the processor seconds and the elapsed seconds of the flow graph
alone, without Python's start and without the texts, and the peak megabytes of the process)"""

import resource
import sys
import time

from gnuradio import blocks, filter as filters, gr


def main():
    count, file = int(sys.argv[1]), sys.argv[2]
    with open(file) as it:
        items = [float(word) for word in it.read().split(":")[1].split()]
    graph, sink = gr.top_block(), blocks.vector_sink_f()
    # (a filter with feedback: what it put before counts once)
    adds_up = filters.iir_filter_ffd([1.0], [0.0, 1.0], True)
    graph.connect(blocks.vector_source_f(items, False), *[blocks.copy(gr.sizeof_float) for _ in range(count - 1)], adds_up, sink)
    began, used = time.perf_counter(), time.process_time()
    graph.run()
    clock, processor = time.perf_counter() - began, time.process_time() - used
    print("o:" + "".join(f" {int(item)}" for item in sink.data()))
    print(processor, clock, resource.getrusage(resource.RUSAGE_SELF).ru_maxrss / 1000, file=sys.stderr)


main()
