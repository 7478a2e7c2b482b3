"""How fast the machine is now, by a fixed loop: it takes 2 to 4 ms where a processor is this process's alone, 6 to 17 where others use it too.

usage: python3 tools/pace.py      (prints the milliseconds of some loops)
"""
import time


def loop():
    """The seconds of the loop."""
    start, number = time.perf_counter(), 1
    for _ in range(60000):
        number = number * 5 & 65535
    return time.perf_counter() - start


if __name__ == "__main__":
    print(*(f"{1000 * loop():.1f}" for _ in range(15)))
