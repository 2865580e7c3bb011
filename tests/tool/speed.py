"""`yard check` of a full map and `yard route` on it take under 20 ms from start to end."""
import subprocess
import tempfile
import time
from pathlib import Path

from harness import GOOD, YARD, check, counts
from make_coils_examples import largest
from make_search_cases import spelled

MOST_SECONDS = 0.020
ROUNDS = 50


def full():
    """2,048 stations on 240 pages that are full to the last moves: each station leads to the next five."""
    n, pages = 2048, 240
    moves = {s: sorted(((s + k) % n, 1 + s * k % 60) for k in range(1, 6)) for s in range(n)}
    return spelled([s * pages // n for s in range(n)], moves, pages)


def seconds(*words):
    """The median of so many runs, each timed from before its start to its end."""
    taken = []
    for _ in range(ROUNDS):
        counts['runs'] += 1
        begin = time.perf_counter()
        done = subprocess.run([str(YARD), *words], stdout=subprocess.DEVNULL)
        taken.append(time.perf_counter() - begin)
        if done.returncode != GOOD:
            check(f'yard {words[0]} of a full map', done.returncode, GOOD)
    return sorted(taken)[ROUNDS // 2]


def run():
    with tempfile.TemporaryDirectory() as folder:
        for name, image in (('full', full()), ('ring', largest())):
            path = Path(folder) / name
            path.write_bytes(image)
            for words in (('check', str(path)), ('route', str(path), '0', '1023')):
                median = seconds(*words)
                print(f'yard {words[0]}, {name} map: {median * 1000:.1f} ms')
                check(f'yard {words[0]}, {name} map: under 20 ms', median < MOST_SECONDS, True)
