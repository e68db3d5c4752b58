# shellcheck shell=bash
# How much other work a bed has. Sourced by the labs.
MOST_SLOW=4 # a fixed loop that takes so many times as long as alone: nothing can be judged beside that

# slow_now: how many times as long as alone a fixed loop takes now, one on each processor that the bed may use
slow_now() {
    python3 - << 'END'
import multiprocessing
import os
import time


def loop(_):
    begun, used = time.monotonic(), time.process_time()
    sum(range(8000000))
    return (time.monotonic() - begun) / (time.process_time() - used)


with multiprocessing.Pool() as pool:
    print("%.2f" % max(1.0, *pool.map(loop, range(len(os.sched_getaffinity(0))))))
END
}
