#!/usr/bin/env python3
"""Runs pages with blocks on this program and on AngularJS 1.8, in jsdom and in headless Chromium, and prints their times side by side.

usage: bench/angular.py [--cmd PROGRAM] [--only TEXT] [--times N] [--without jsdom|chromium ..]
AngularJS, jsdom and Chromium are those of Debian's packages libjs-angularjs, node-jsdom and chromium; a column whose package is not
there is left empty. All columns of one table are of one run, on one machine, in processor time; what else runs there still takes
room in its caches.

A workload is a page, its data, directives of its own if it has some, and commands that are applied one after another: `eval E` here, `$apply(E)` on the root scope there; or a text that
is typed into a control: `type #ID TEXT` here, the value of the element and the event `input` there. All run the same template, data and expressions. The time of a step is the mean of all commands, the least of N rounds (default 3).
  ngrun      run as ./ngrun runs it, with the allocator told what dist/tunables has. A step is the processor time of a whole run less that of
             one without the script, over the number of commands. It is taken
             without the print of the document (one more hole faults, so that each step digests and prints none) and, beside it, with it.
             An opening is a whole run of the program: start, files, parsing and compiling among it.
  AngularJS  the processor time of its process in jsdom, and of the page's own thread in Chromium, in one page: compiling, linking and the first
             digest are an opening, `$apply` alone a step; start of the browser, parsing of its HTML, layout and painting are not in it, nor
             what Chromium does beside the page's thread. From the second round on its code is warm.
A row is 'right' where the texts of the page's elements are the same at the end."""
import argparse
import json
import os
import re
import resource
import shutil
import subprocess
import tempfile

HERE = os.path.dirname(os.path.abspath(__file__))
ANGULAR = '/usr/share/javascript/angular.js/angular.min.js'
TOOLS = os.path.join(HERE, 'angular')
LIST = '<li ng-repeat="r in rows track by r.id">{{r.n}}</li>'


def entries(count, first=1):
    return [{'id': i, 'n': i} for i in range(first, first + count)]


def opening(count):
    return LIST, {'rows': entries(count)}, []


def pushed(count):
    return LIST, {'rows': entries(count)}, [f'rows.push({{id: {count + k}, n: {k}}})' for k in range(1, 21)]


def removed(count):
    return LIST, {'rows': entries(count)}, [f'rows.splice({count // 2}, 1)'] * 20


def turned(count):
    return LIST, {'rows': entries(count)}, ['rows.reverse()'] * 10


def replaced(count):
    """Two lists without a common id, in turn. A row that comes and goes takes objects of the program's million, so the steps are few."""
    a, b = entries(count), entries(count, count + 1)
    return LIST, {'rows': a, 'a': a, 'b': b, 'of': 0}, ['of = 1 - of; rows = of ? b : a'] * 6


def changed(count):
    return LIST, {'rows': entries(count)}, [f'rows[{(k * 7919) % count}].n = {count + k}' for k in range(1, 101)]


def toggled(nodes):
    holes = nodes // 2 - 1
    inside = ''.join(f'<b>{{{{n{i}}}}}</b>' for i in range(holes)) + '<br>' * (nodes - 1 - 2 * holes)
    data = {f'n{i}': i for i in range(holes)} | {'on': True}
    return f'<div ng-if="on">{inside}</div>', data, ['on = !on'] * 20 + ['on = true']


CONTROLS = '<p ng-repeat="r in rows track by r.id"><input id="c{{r.id}}" ng-model="r.n"><b>{{r.n}}</b></p>'


def controls(count):
    return CONTROLS, {'rows': entries(count)}, []


def typed_in_one(count):
    return CONTROLS, {'rows': entries(count)}, [[f'c{count // 2}', f'{k}'] for k in range(1, 101)]


def typed_in_all(count):
    return CONTROLS, {'rows': entries(count)}, [[f'c{k}', f'{count + k}'] for k in range(1, count + 1)]


# an isolate directive of two bindings in each row
PAIRS = '<p ng-repeat="r in rows track by r.id"><pair n="r.n" t="{{r.t}}"></pair></p>'
PAIR = {'name': 'pair', 'restrict': 'E', 'scope': {'n': '=', 't': '@'}, 'template': '<b>{{n}}</b><i>{{t}}</i>'}


def pairs(count):
    return PAIRS, {'rows': [entry | {'t': entry['id']} for entry in entries(count)]}, [], [PAIR]


def bound_in_one(count):
    return *pairs(count)[:2], [f'rows[{(k * 7919) % count}].n = {count + k}' for k in range(1, 101)], [PAIR]


def bound_in_all(count):
    """All rows have other values, which the expression takes from a second list of the same ids."""
    template, data, _, directives = pairs(count)
    other = [{'id': i, 'n': count + i, 't': 2 * count + i} for i in range(1, count + 1)]
    return template, data | {'a': data['rows'], 'b': other, 'of': 0}, ['of = 1 - of; rows = of ? b : a'] * 20, directives


def line(command):
    """A command as a line of a script."""
    return 'eval ' + command if isinstance(command, str) else f'type #{command[0]} {json.dumps(command[1])}'


# what is measured, whether it is the opening, what makes it, and its size
WORKLOADS = [(f'opening of {n:,} rows', True, opening, n) for n in (1_000, 10_000, 99_999)]
WORKLOADS += [('one row pushed to 10,000', False, pushed, 10_000), ('one row removed from the middle of 10,000', False, removed, 10_000)]
WORKLOADS += [('10,000 rows reversed', False, turned, 10_000), ('10,000 rows replaced', False, replaced, 10_000)]
WORKLOADS += [(f'one value changed in one of {n:,} rows', False, changed, n) for n in (1_000, 10_000)]
WORKLOADS += [('ng-if toggled over a body of 1,000 nodes', False, toggled, 1_000)]
WORKLOADS += [('opening of 1,000 controls', True, controls, 1_000), ('a text typed into one of 1,000 controls', False, typed_in_one, 1_000)]
WORKLOADS += [('1,000 controls typed into, one after another', False, typed_in_all, 1_000)]
WORKLOADS += [('opening of 1,000 isolate directives of two bindings', True, pairs, 1_000)]
WORKLOADS += [('one value changed outside of 1,000 isolate directives', False, bound_in_one, 1_000)]
WORKLOADS += [('all values changed outside of 1,000 isolate directives', False, bound_in_all, 1_000)]


def with_directives(made):
    """Template, data, commands and directives of a workload: most have no directive."""
    return made if len(made) == 4 else (*made, [])


def environment():
    """The environment that ./ngrun gives the program: what the allocator is told, unless the caller tells it something."""
    with open(os.path.join(HERE, '..', 'dist', 'tunables'), encoding='utf-8') as file:
        return {'GLIBC_TUNABLES': file.read().strip()} | os.environ


def seconds(words, times):
    """The least processor time of so many runs, in seconds."""
    found = []
    for _ in range(times):
        before = resource.getrusage(resource.RUSAGE_CHILDREN)
        subprocess.run(words, stdin=subprocess.DEVNULL, stdout=subprocess.DEVNULL, env=environment())
        after = resource.getrusage(resource.RUSAGE_CHILDREN)
        found.append(after.ru_utime - before.ru_utime + after.ru_stime - before.ru_stime)
    return min(found)


def texts(page):
    """The texts of the innermost elements of a printed page, in order; they are numbers, without references."""
    return '|'.join(text for _, text in re.findall(r'<(\w+)(?: [^<>]*)?>([^<]*)</\1>', re.sub(r'<(br|input)( [^<>]*)?>', r'<\1></\1>', page)))


def here(cmd, made, folder, times):
    """Opening, a step, a step with its print, in seconds, and the texts at the end; nothing where the program refuses the page."""
    template, data, commands, directives = with_directives(made)
    names = [os.path.join(folder, name) for name in ('template', 'quiet', 'app', 'script')]
    # data is given a zero, so that the hole that is added faults
    contents = (template, template + '{{1 / zero}}', json.dumps({'data': data | {'zero': 0}, 'directives': directives}), '\n'.join(line(x) for x in commands))
    for name, content in zip(names, contents):
        with open(name, 'w', encoding='utf-8') as file:
            file.write(content)
    printed, quiet, app, script = names
    whole = [cmd, printed, app] + [script] * bool(commands)
    done = subprocess.run(whole, stdin=subprocess.DEVNULL, stdout=subprocess.PIPE, env=environment())
    if done.returncode == 3:
        return None
    start = seconds([cmd, printed, app], times)
    steps = [None, None]
    if commands:
        steps[0] = (seconds([cmd, quiet, app, script], times) - seconds([cmd, quiet, app], times)) / len(commands)
        steps[1] = (seconds(whole, times) - start) / len(commands)
    return start, steps[0], steps[1], texts(done.stdout.decode().rstrip('\n').split('\n')[-1])


def in_node(*words):
    """What a script of the folder of tools gives, or nothing where it failed."""
    paths = ':'.join(['/usr/share/nodejs', '/usr/lib/nodejs'])
    run = ['node', os.path.join(TOOLS, words[0])] + list(words[1:])
    done = subprocess.run(run, stdin=subprocess.DEVNULL, stdout=subprocess.PIPE, env=os.environ | {'NODE_PATH': paths})
    return json.loads(done.stdout) if not done.returncode else None


def told(amount):
    if amount is None:
        return ''
    for unit, size in (('s', 1), ('ms', 1e-3), ('µs', 1e-6)):
        if amount >= size:
            return f'{float(format(amount / size, ".2g")):g} {unit}'
    return f'{float(format(max(0, amount) / 1e-9, ".2g")):g} ns'


def row(name, opens, made, cmd, times, without):
    """One line of the table."""
    with tempfile.TemporaryDirectory() as folder:
        job = os.path.join(folder, 'job.json')
        template, data, commands, directives = with_directives(made)
        with open(job, 'w', encoding='utf-8') as file:
            json.dump({'template': template, 'data': data, 'commands': commands, 'directives': directives, 'rounds': times}, file)
        ours = here(cmd, made, folder, times)
        theirs = [None if 'jsdom' in without else in_node('in_jsdom.js', ANGULAR, job)]
        theirs.append(None if 'chromium' in without else in_node('in_chromium.js', ANGULAR, job, os.path.join(folder, 'profile')))
    key = 'opening' if opens else 'step'
    times_there = [None if found is None else found[key] / 1000 for found in theirs]
    first = [None, None] if ours is None else [ours[0], None] if opens else [ours[1], ours[2]]
    factor = '' if first[0] is None or times_there[1] is None else f'{times_there[1] / max(first[0], 1e-9):.1f}'
    same = ours is not None and all(found is None or found['shown'] == ours[3] for found in theirs)
    said = 'not built' if ours is None else 'right' if same else 'WRONG'
    return '| ' + ' | '.join([name] + [told(x) for x in first + times_there] + [factor, said]) + ' |'


def main():
    words = argparse.ArgumentParser(description=__doc__, formatter_class=argparse.RawDescriptionHelpFormatter)
    words.add_argument('--cmd', default=os.path.join(HERE, '..', 'ngrun'))
    words.add_argument('--only', default='')
    words.add_argument('--times', type=int, default=3)
    words.add_argument('--without', nargs='*', choices=('jsdom', 'chromium'), default=[])
    given = words.parse_args()
    without = given.without + [name for name, tool in (('jsdom', 'node'), ('chromium', 'chromium')) if not shutil.which(tool) or not os.path.exists(ANGULAR)]
    print('| workload | ngrun | with its print | AngularJS in jsdom | in Chromium | Chromium to ngrun | |\n|---|---|---|---|---|---|---|')
    for name, opens, make, size in WORKLOADS:
        if given.only in name:
            print(row(name, opens, make(size), given.cmd, given.times, without), flush=True)


if __name__ == '__main__':
    main()
