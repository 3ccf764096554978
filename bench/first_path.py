#!/usr/bin/env python3
"""Times the program on large inputs of the first path, and checks what it writes.

usage: bench/first_path.py [--cmd PROGRAM]
Each row is one run: the input's size, the seconds, the peak memory in MiB, and whether the bytes are right. The
rows that differ by a factor of ten show that time grows in proportion to the input."""
import argparse
import filecmp
import json
import multiprocessing
import os
import subprocess
import tempfile
import time


def written(body):
    return b'# 0 open\n' + body + b'\n'


def numbers(count):
    return json.dumps({'data': {f'n{i}': i for i in range(count)}}).encode()


def holes(count, different):
    return ''.join('<b>{{n%d}}</b>' % (i % different) for i in range(count)).encode()


def elements(count):
    body = ''.join('<b>%d</b>' % i for i in range(count))
    return holes(count, count + 1), numbers(count + 1), written(body.encode())


def too_many_elements(count):
    """An element with a hole is two nodes, and a page has at most 200,000: the template is read, and the page is empty."""
    return holes(count, 100_000), numbers(100_000), b'# 0 open\naction: fault 1 NodeLimit\n\n'


def letters(count):
    return b'a' * count, b'{}', written(b'a' * count)


def data(count):
    facts = {'list': [{'id': i, 'name': f'entry {i}', 'on': i % 2 == 0} for i in range(count)], 'last': count}
    return b'{{last}}', json.dumps({'data': facts}).encode(), written(str(count).encode())


# what is measured, what makes its files, how many, and the status
ROWS = [
    ('9,999 elements with a hole each, over 10,000 numbers', elements, 9_999, 0),
    ('99,999 elements with a hole each, over 100,000 numbers', elements, 99_999, 0),
    ('199,000 elements with a hole each, over 100,000 numbers: NodeLimit', too_many_elements, 199_000, 1),
    ('6,710,886 letters', letters, 6_710_886, 0),
    ('67,108,864 letters', letters, 67_108_864, 0),
    ('JSON of 99,999 objects', data, 99_998, 0),
    ('JSON of 999,990 objects', data, 999_988, 0),
]


def prepare(make, count, folder):
    """Writes the files of a row. A process of its own does it, so that what it takes is not counted."""
    for name, content in zip(('template', 'app', 'want'), make(count)):
        with open(os.path.join(folder, name), 'wb') as out:
            out.write(content)


def main():
    words = argparse.ArgumentParser(description=__doc__, formatter_class=argparse.RawDescriptionHelpFormatter)
    words.add_argument('--cmd', default=os.path.join(os.path.dirname(__file__), '..', 'ngrun'))
    cmd = words.parse_args().cmd
    for name, make, count, wanted in ROWS:
        with tempfile.TemporaryDirectory() as folder:
            maker = multiprocessing.Process(target=prepare, args=(make, count, folder))
            maker.start()
            maker.join()
            template, application, want, found = (os.path.join(folder, x) for x in ('template', 'app', 'want', 'found'))
            with open(found, 'wb') as out:
                start = time.monotonic()
                process = subprocess.Popen([cmd, template, application], stdout=out)
                _, status, usage = os.wait4(process.pid, 0)
                seconds = time.monotonic() - start
            size = (os.path.getsize(template) + os.path.getsize(application)) / 2**20
            right = 'right' if os.waitstatus_to_exitcode(status) == wanted and filecmp.cmp(found, want, shallow=False) else f'WRONG (status {os.waitstatus_to_exitcode(status)})'
        print(f'{name}: {size:.1f} MiB in, {seconds:.2f} s, {usage.ru_maxrss / 1024:.0f} MiB, {right}')


if __name__ == '__main__':
    main()
