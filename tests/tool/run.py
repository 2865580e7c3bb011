"""Tests the tool `yard` from outside.

    python3 tests/tool/run.py            runs all; exit 1 on a difference
    python3 tests/tool/run.py --write    stores what the sessions and the documents' commands print now

What it prints is compared with what is stored (sessions), with what other programs find (answers), and with what is
stated here, for wrong usage (usage), for files and streams that fail (broken), for the wrong programs of the course
(course), for the man page (manual), for the time that it takes (speed) and for what is installed (installed).
"""
import sys
import time

import answers
import broken
import course
import harness
import installed
import manual
import sessions
import speed
import usage


def main():
    if sys.argv[1:] == ['--write']:
        sessions.write()
        return
    if sys.argv[1:]:
        sys.exit('the only argument is --write')
    for part in (sessions, usage, broken, answers, course, manual, speed, installed):
        begin, before = time.monotonic(), dict(harness.counts)
        part.run()
        runs, comparisons = (harness.counts[name] - before[name] for name in ('runs', 'comparisons'))
        seconds = time.monotonic() - begin
        print(f'{part.__name__}: {runs} runs of yard, {comparisons} comparisons, {seconds:.1f} s')
    print(f"{harness.counts['differences']} differences")
    sys.exit(1 if harness.counts['differences'] else 0)


if __name__ == '__main__':
    main()
