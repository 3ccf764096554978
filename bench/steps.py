#!/usr/bin/env python3
"""Times the steps of scripts on pages of several sizes, and checks what they print.

usage: bench/steps.py [--cmd PROGRAM] [--only TEXT] [--times N]
A workload is a page and a hundred commands (a thousand where the page is small, ten where all of it changes), each of which changes one
value. The time of a step is
that of the whole run, less that of a run without the script, over their number: processor time, the least of N runs (default 3). The
tests of a step are those that the trace tells, the mean of all steps. Prints a table, with the time of the opening beside; 'WRONG' where
the bytes are not those wanted.
A page 'without its print' is timed with one more hole, which faults, so that its steps digest and print no document."""
import argparse
import hashlib
import json
import os
import re
import resource
import subprocess
import tempfile

SIZES = (1_000, 10_000, 99_999)


def spread(count):
    """Which entry each step changes: all parts of the page have their turn."""
    return [(k * 7919) % count for k in range(1, 1001 if count <= 1_000 else 101)]


def holes(count):
    """So many elements with a hole each, and in each step another number in one of them."""
    template = ''.join(f'<b>{{{{n{i}}}}}</b>' for i in range(count))
    commands = [f'eval n{i} = {count + k}' for k, i in enumerate(spread(count))]
    shown = [str(i) for i in range(count)]
    pages = ['<b>' + '</b><b>'.join(shown) + '</b>']
    for k, i in enumerate(spread(count)):
        shown[i] = str(count + k)
        pages.append('<b>' + '</b><b>'.join(shown) + '</b>')
    return template, {'data': {f'n{i}': i for i in range(count)}}, commands, pages


def watches(kind, value, change):
    """So many declared watches of this kind over as many values, on an empty page."""

    def make(count):
        app = {'data': {f'x{i}': value(i) for i in range(count)}, 'watch': [{'expr': f'x{i}', 'kind': kind, 'do': ''} for i in range(count)]}
        return '', app, [f'eval {change(i, count + k)}' for k, i in enumerate(spread(count))], [''] * (len(spread(count)) + 1)

    return make


def labels(once, live):
    """So many one-time holes, and live ones of which each step changes one."""
    template = ''.join(f'<i>{{{{::t{i % 100}}}}}</i>' for i in range(once)) + ''.join(f'<b>{{{{n{i}}}}}</b>' for i in range(live))
    data = {f't{i}': f'label {i}' for i in range(100)} | {f'n{i}': i for i in range(live)}
    commands = [f'eval n{i} = {live + k}' for k, i in enumerate(spread(live))]
    return template, {'data': data}, commands, None


def wide(count):
    """One text with so many holes."""
    template = ' '.join(f'{{{{n{i}}}}}' for i in range(count))
    commands = [f'eval n{i} = {count + k}' for k, i in enumerate(spread(count))]
    return template, {'data': {f'n{i}': i for i in range(count)}}, commands, None


def clean(count):
    """So many elements with a hole each, and steps that change nothing: each is a digest whose tests are all clean."""
    template, app, commands, _ = holes(count)
    return template, app, ['digest'] * len(commands), None


def buttons(count):
    """So many elements with a class, a bound text and a handler of clicks each."""
    one = '<b id="e{0}" ng-class="{{on: n{0} > limit}}" ng-bind="n{0}" ng-click="n{0} = n{0} + {1}"></b>'
    app = {'data': {f'n{i}': i for i in range(count)} | {'limit': count}}
    return ''.join(one.format(i, count) for i in range(count)), app


def button_pages(count, steps):
    """What is printed of them at first, and after each step, which changes the numbers and the limit."""
    numbers, limit = list(range(count)), count
    one = '<b{2} id="e{0}" ng-bind="n{0}" ng-class="{{on: n{0} > limit}}" ng-click="n{0} = n{0} + {1}">{3}</b>'
    pages = []
    for step in [None] + steps:
        if step is not None:
            limit = step(numbers, limit)
        pages.append(''.join(one.format(i, count, ' class="on"' if n > limit else '', n) for i, n in enumerate(numbers)))
    return pages


def clicks(count):
    """In each step a click on another of them."""
    def clicked(i):
        def step(numbers, limit):
            numbers[i] += count
            return limit
        return step

    places = spread(count)
    return *buttons(count), [f'click #e{i}' for i in places], button_pages(count, [clicked(i) for i in places])


def all_changed(count):
    """Each step changes the class of all of them."""
    limits = [-1 if k % 2 == 0 else count for k in range(10)]
    return *buttons(count), [f'eval limit = {limit}' for limit in limits], button_pages(count, [lambda _, old, new=limit: new for limit in limits])


def toggles(count):
    """The commands that take bodies away and make them anew, in turn."""
    return [f"eval on = {'false' if k % 2 == 0 else 'true'}" for k in range(count)]


def body(nodes):
    """One block, whose body has so many nodes, a hole in each second one but two, and is taken away and made anew in turn."""
    holes = nodes // 2 - 1
    inside = ''.join(f'<b>{{{{n{i}}}}}</b>' for i in range(holes)) + '<br>' * (nodes - 1 - 2 * holes)
    shown = ''.join(f'<b>{i}</b>' for i in range(holes)) + '<br>' * (nodes - 1 - 2 * holes)
    pages = [f'<!----><div ng-if="on">{shown}</div>', '<!---->']
    commands = toggles(1_000 if nodes <= 1_000 else 100)
    return f'<div ng-if="on">{inside}</div>', {'data': {f'n{i}': i for i in range(holes)} | {'on': True}}, commands, [pages[k % 2] for k in range(len(commands) + 1)]


def bodies(count):
    """So many blocks with a hole in each body, all of which are taken away and made anew in turn."""
    template = ''.join(f'<b ng-if="on">{{{{n{i}}}}}</b>' for i in range(count))
    pages = [''.join(f'<!----><b ng-if="on">{i}</b>' for i in range(count)), '<!---->' * count]
    commands = toggles(10)
    return template, {'data': {f'n{i}': i for i in range(count)} | {'on': True}}, commands, [pages[k % 2] for k in range(len(commands) + 1)]


def three(i):
    return [i, i + 1, i + 2]


def changed(kind):
    """Watches of this kind, and how a step changes one of their values."""
    if kind == 'reference':
        return watches(kind, lambda i: i, lambda i, v: f'x{i} = {v}')
    if kind == 'collection':
        return watches(kind, three, lambda i, v: f'x{i}[1] = {v}')
    return watches(kind, lambda i: {'a': three(i)}, lambda i, v: f'x{i}.a[1] = {v}')


# what is measured, whether its pages are printed, what makes it, and its sizes
WORKLOADS = [(f'{n:,} elements with a hole each', True, holes, (n,)) for n in SIZES]
WORKLOADS += [(f'{n:,} elements with a hole each, without its print', False, holes, (n,)) for n in SIZES]
WORKLOADS += [(f'{n:,} elements with a hole each, all clean, without their print', False, clean, (n,)) for n in SIZES]
WORKLOADS += [(f'{n:,} watches by reference, of numbers', True, changed('reference'), (n,)) for n in SIZES]
WORKLOADS += [(f'{n:,} watches of collections, of three numbers each', True, changed('collection'), (n,)) for n in SIZES]
WORKLOADS += [(f'{n:,} watches by value, of an object with a list of three numbers each', True, changed('value'), (n,)) for n in SIZES]
WORKLOADS += [(f'{o:,} one-time holes beside {n:,} live ones, without its print', False, labels, (o, n)) for o, n in ((0, 100), (10_000, 100), (0, 10_100))]
WORKLOADS += [(f'{n:,} elements with a class, a bound text and a click each, a click on one', True, clicks, (n,)) for n in SIZES[:2]]
WORKLOADS += [(f'the same {n:,} elements, without their print', False, clicks, (n,)) for n in SIZES[:2]]
WORKLOADS += [(f'the same {n:,} elements, the class of all changed', True, all_changed, (n,)) for n in SIZES[:2]]
WORKLOADS += [(f'ng-if toggled over a body of {n:,} nodes', True, body, (n,)) for n in SIZES[:2]]
WORKLOADS += [(f'{n:,} ng-ifs over a hole each, all toggled', True, bodies, (n,)) for n in SIZES[:2]]
WORKLOADS += [(f'one text with {n:,} holes, without its print', False, wide, (n,)) for n in (100, 1_000)]


def seconds(words, times):
    """The least processor time of so many runs, in seconds."""
    found = []
    for _ in range(times):
        before = resource.getrusage(resource.RUSAGE_CHILDREN)
        subprocess.run(words, stdin=subprocess.DEVNULL, stdout=subprocess.DEVNULL)
        after = resource.getrusage(resource.RUSAGE_CHILDREN)
        found.append(after.ru_utime - before.ru_utime + after.ru_stime - before.ru_stime)
    return min(found)


def bytes_wanted(commands, pages, printed):
    """The checksum of what is to be printed: each header, and its page or, of a page without its print, its fault."""
    found = hashlib.sha256()
    for k, header in enumerate(['open'] + commands):
        line = pages[k] if printed else 'digest: fault 1 NotWhole'
        found.update(f'# {k} {header}\n{line}\n'.encode())
    return found.hexdigest()


def printed_by(words):
    """The checksum of what a run prints without its trace, and the tests of a step by that: the mean of all steps but the opening."""
    found, tests = hashlib.sha256(), []
    with subprocess.Popen(words, stdin=subprocess.DEVNULL, stdout=subprocess.PIPE) as run:
        for line in run.stdout:
            trace = re.fullmatch(rb'~ rounds \d+ fires \d+ tests (\d+)\n', line)
            if trace:
                tests.append(int(trace[1]))
            else:
                found.update(line)
    return found.hexdigest(), sum(tests[1:]) / max(1, len(tests) - 1)


def told(amount):
    for unit, size in (('s', 1), ('ms', 1e-3), ('µs', 1e-6)):
        if amount >= size:
            return f'{float(format(amount / size, ".2g")):g} {unit}'
    return f'{float(format(max(0, amount) / 1e-9, ".2g")):g} ns'


def measured(cmd, made, printed, times):
    template, app, commands, pages = made
    with tempfile.TemporaryDirectory() as folder:
        names = [os.path.join(folder, name) for name in ('template', 'app', 'script')]
        for name, content in zip(names, (template, json.dumps(app), '\n'.join(commands))):
            with open(name, 'w', encoding='utf-8') as file:
                file.write(content)
        found, tests = printed_by([cmd, '--trace'] + names)
        if not printed:
            with open(names[0], 'a', encoding='utf-8') as file:
                file.write('{{1 / 0}}')
            found, _ = printed_by([cmd] + names)
        right = found == bytes_wanted(commands, pages, printed)
        opening = seconds([cmd] + names[:2], times)
        step = (seconds([cmd] + names, times) - opening) / len(commands)
    return step, tests, opening, right


def started(cmd, times):
    """The time of a whole run over the smallest page, by the clock."""
    with tempfile.TemporaryDirectory() as folder:
        names = [os.path.join(folder, name) for name in ('template', 'app')]
        for name, content in zip(names, ('', '{}')):
            with open(name, 'w', encoding='utf-8') as file:
                file.write(content)
        runs = f'for i in {" ".join(["x"] * 200)}; do "$1" "$2" "$3"; done'
        return seconds(['sh', '-c', runs, 'sh', cmd] + names, times) / 200


def main():
    words = argparse.ArgumentParser(description=__doc__, formatter_class=argparse.RawDescriptionHelpFormatter)
    words.add_argument('--cmd', default=os.path.join(os.path.dirname(os.path.abspath(__file__)), '..', 'ngrun'))
    words.add_argument('--only', default='')
    words.add_argument('--times', type=int, default=3)
    given = words.parse_args()
    print('| page | a step | its tests | for each test | opening | |\n|---|---|---|---|---|---|')
    for name, printed, make, size in WORKLOADS:
        if given.only in name:
            step, tests, opening, right = measured(given.cmd, make(*size), printed, given.times)
            each = told(step / tests) if tests else ''
            print(f"| {name} | {told(step)} | {tests:,.0f} | {each} | {told(opening)} | {'right' if right else 'WRONG'} |", flush=True)
    if given.only in 'the smallest page':
        print(f'| the smallest page, a whole run | | | | {told(started(given.cmd, given.times))} | |')


if __name__ == '__main__':
    main()
