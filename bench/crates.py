#!/usr/bin/env python3
"""Times workloads of single crates, at a size and at ten times that size.

usage: bench/crates.py [--cmd PROGRAM] [--acts PROGRAM]
The programs are the built `ng_bench` and `ng_bench_acts` (crates/ng_bench/out/ng_bench after `rt run` in that crate, and so the other). Each row
is a workload, its sizes, the seconds of processor time of each, and how much longer the larger one took."""
import argparse
import os
import resource
import subprocess

ROWS = [
    ('programs of 999 tokens, lexed and parsed', 'parse', 100),
    ('an array of numbers, compared with its Deep snapshot a hundred times', 'wide', 9_999),
    ('a record 90 levels deep, compared with its Deep snapshot so many times', 'deep', 10_000),
    ('watchers, fired once and then tested clean', 'digest', 10_000),
    ('listeners, walked and taken out from the front', 'front', 10_000),
    ('listeners, walked and taken out from the back', 'back', 10_000),
    ('listeners, walked and taken out from the middle', 'middle', 10_000),
    ('scopes dropped, of which each tenth has a listener', 'drop', 10_000),
    ('scopes, made and met in the order of their paths', 'scopes', 10_000),
    ('evaluations of `a.b.c + d * 2 > 10 ? e.f : g[h]`', 'choice', 100_000),
    ("a hundred evaluations of `xs | orderBy:'n' | limitTo:10` over so many objects", 'order', 10_000),
    ('clean watchers, tested one after another', 'watches', 10_000),
    ('a plan of a repeat whose rows come in reverse', 'reversed', 10_000),
    ('a plan of a repeat of which each tenth row is gone', 'tenths', 10_000),
    ('commands of a script, read', 'script', 10_000),
    ('paragraphs of a document, built and shown, and the text of each written', 'texts', 9_999),
    ('a thousand groups, inserted in the middle of so many at an anchor', 'groups', 9_900),
    ('one broadcast, to so many listeners on 1,000 scopes', 'broadcast', 10_000),
    ('emits from the lowest of 60 scopes', 'emit', 10_000),
    ('calls of a function', 'calls', 10_000),
    ('scopes with a listener each, destroyed one after another', 'destroy', 10_000),
]
# what the second program does
ACTS = ['broadcast', 'emit', 'calls', 'destroy']


def seconds(cmd, workload, size):
    """The seconds of processor time that a run took, so that other work on the machine counts little."""
    before = resource.getrusage(resource.RUSAGE_CHILDREN)
    out = subprocess.run([cmd, workload, str(size)], stdout=subprocess.PIPE, check=True).stdout.split()
    after = resource.getrusage(resource.RUSAGE_CHILDREN)
    assert out[:2] == [workload.encode(), str(size).encode()] and out[2] != b'failed', out
    return after.ru_utime - before.ru_utime + after.ru_stime - before.ru_stime


def main():
    words = argparse.ArgumentParser(description=__doc__, formatter_class=argparse.RawDescriptionHelpFormatter)
    here = os.path.dirname(os.path.abspath(__file__))
    words.add_argument('--cmd', default=os.path.join(here, '..', 'crates', 'ng_bench', 'out', 'ng_bench'))
    words.add_argument('--acts', default=os.path.join(here, '..', 'crates', 'ng_bench_acts', 'out', 'ng_bench_acts'))
    given = words.parse_args()
    for name, workload, size in ROWS:
        cmd = given.acts if workload in ACTS else given.cmd
        small, large = (seconds(cmd, workload, n) for n in (size, 10 * size))
        print(f'{name}: {size} in {small:.3f} s, {10 * size} in {large:.3f} s, {large / small:.1f} times')


if __name__ == '__main__':
    main()
