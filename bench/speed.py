"""How fast a processor is at the moment, for measures that take an hour: one that others share, as of a rented machine, may do half as much in one minute as in the next."""
import time


def loop():
    """The processor seconds of a fixed loop over some megabytes, about a third of one."""
    start, table, number = time.process_time(), {}, 0
    for at in range(1_000_000):
        table[at & 65535] = number
        number = (number * 1103515245 + 12345) & 0xFFFFFFFF
    return time.process_time() - start
