#!/usr/bin/env python3
"""Runs a program once and prints its times in microseconds.

    python3 bench/spent.py REPORT WORDS..

Its standard output goes to the file REPORT. The line has three numbers: what the processor spent in the program, the
same with what the system spent for it, and the time by the clock. The first alone is rough if a run takes few
milliseconds, because the system only guesses how the sum divides. The status is 1 if the program's isn't 0.
"""
import os
import sys
import time


def main():
    report, words = sys.argv[1], sys.argv[2:]
    into = (os.POSIX_SPAWN_OPEN, 1, report, os.O_WRONLY | os.O_CREAT | os.O_TRUNC, 0o644)
    start = time.perf_counter()
    process = os.posix_spawnp(words[0], words, os.environ, file_actions=[into])
    _, status, used = os.wait4(process, 0)
    times = (used.ru_utime, used.ru_utime + used.ru_stime, time.perf_counter() - start)
    print(*(round(it * 1000000) for it in times))
    sys.exit(0 if os.waitstatus_to_exitcode(status) == 0 else 1)


main()
