#!/usr/bin/env python3
"""Times the program on pages of the whole HTML profile, beside html5ever.

usage: bench/html.py [--cmd PROGRAM] [--mib N]
Each row is one run over one page: the seconds of processor time, MiB a second, and the peak memory in MiB; a
run that takes more than two minutes is ended. `ngrun` does
the whole run: it reads, compiles, links, digests and prints. html5ever reads the tokens alone, or reads the tree and
serialises it. It is built from Debian's librust-html5ever-dev and librust-markup5ever-rcdom-dev with cargo, without a
network; where that fails its rows are left out.

A page has at most 200,000 nodes, so the large page has long texts; the page of short texts has nearly all of its nodes
at an eighth of the size. The pages of one kind of byte show that time grows in proportion to the input."""
import argparse
import multiprocessing
import os
import resource
import shutil
import signal
import subprocess
import tempfile

HERE = os.path.dirname(os.path.abspath(__file__))
REGISTRY = '/usr/share/cargo/registry'

WORDS = ('The harbour at low water is a field of grey mud with one channel through it, and the boats that stay lie on '
         'their sides until the tide turns. Nobody hurries then. In the office above the slip somebody reads the '
         'barometer, writes three numbers into a book that was begun before the war, and looks out at the bar. ')

HEAD = '''<!DOCTYPE html>
<html lang="en">
<head>
<meta charset="utf-8">
<title>Reports &amp; notes from the harbour</title>
<link rel="stylesheet" href="/assets/site.css" media='screen'>
<meta name="description" content="Tides, boats &quot;and&quot; weather">
</head>
<body class="page page--reports ng-cloak" ng-cloak>
<!-- the header is the same on every page -->
<header id="top"><a class="brand" href="/">{{site}}</a></header>
<main>
'''

FOOT = '''</main>
<footer><p>&copy; {{site}} &mdash; all times are local</p></footer>
</body>
</html>
'''


def article(number, repeats):
    """Some paragraphs, a list and a table, as a reader's page has them: about twenty nodes."""
    text = WORDS * repeats
    return f'''<article class="report report--{number % 7}" id="r{number}" data-day="{number % 365}">
<h2><a href="/reports/{number}?from=list&amp;page={number % 9}">Report {number}</a></h2>
<p>{text}<em>Wind {number % 12}</em> &ndash; {text}</p>
<ul class=tides><li>{text}<li><b>low</b> {text}</ul>
<table><tr><th scope="row">Boats<td align=right>{number % 40}</table>
</article>
'''


def page(size, repeats):
    parts, length, number = [HEAD], len(HEAD) + len(FOOT), 0
    while True:
        part = article(number, repeats)
        if length + len(part) > size:
            break
        parts.append(part)
        length += len(part)
        number += 1
    parts.append(FOOT)
    return ''.join(parts).encode()


def bytes_of(part):
    return lambda size: (part * (size // len(part))).encode()


def make(kind, size, folder):
    """Writes a page. A process of its own does it, so that what it takes is not counted."""
    with open(os.path.join(folder, 'page.html'), 'wb') as out:
        out.write(PAGES[kind](size))
    with open(os.path.join(folder, 'app.json'), 'w') as out:
        out.write('{"format":1,"data":{"site":"Harbour office"}}')


PAGES = {
    'long texts': lambda size: page(size, 9),
    'short texts': lambda size: page(size, 1),
    '<': bytes_of('<'),
    '&': bytes_of('&'),
    'attributes of one tag': lambda size: ('<p ' + ' '.join(f'a{i:07}=1' for i in range(size // 11 - 1)) + '></p>').encode(),
    'comments': bytes_of('<!--' + 'a' * 393 + '-->'),
    'li without end tags': lambda size: ('<ul>' + ('<li>' + 'a' * 796) * (size // 800 - 1) + '</ul>').encode(),
}

MIB = 2**20

# The seconds of processor time that a run may take.
LIMIT = 120


def rows(mib):
    yield 'long texts', mib * MIB
    yield 'short texts', mib * MIB // 8
    for kind in ('<', '&', 'attributes of one tag', 'comments', 'li without end tags'):
        yield kind, mib * MIB // 10
        yield kind, mib * MIB


def html5ever():
    """The program that is built from html5ever, or None."""
    # Debian's own compiler fits Debian's crates; a newer one refuses one of them.
    debians = os.path.exists('/usr/bin/cargo') and os.path.exists('/usr/bin/rustc')
    cargo = '/usr/bin/cargo' if debians else shutil.which('cargo')
    if cargo is None or not os.path.isdir(os.path.join(REGISTRY, 'html5ever-0.26.0')):
        return None
    env = dict(os.environ, RUSTC='/usr/bin/rustc') if debians else None
    folder = tempfile.mkdtemp(prefix='html5ever-')
    shutil.copytree(os.path.join(HERE, 'html5ever'), folder, dirs_exist_ok=True)
    os.mkdir(os.path.join(folder, '.cargo'))
    with open(os.path.join(folder, '.cargo', 'config.toml'), 'w') as out:
        out.write(f'[source.crates-io]\nreplace-with = "debian"\n[source.debian]\ndirectory = "{REGISTRY}"\n')
    done = subprocess.run([cargo, 'build', '--release', '--offline', '--quiet'], cwd=folder, env=env, capture_output=True, text=True)
    program = os.path.join(folder, 'target', 'release', 'html5ever-measure')
    if done.returncode == 0 and os.path.exists(program):
        return folder, program
    print('html5ever was not built, so its rows are left out:', done.stderr.strip().split('\n')[-1][:200])
    shutil.rmtree(folder)
    return None


def timed(words):
    """The seconds of processor time, the peak memory in MiB and the status of a command."""
    with open(os.devnull, 'wb') as out:
        process = subprocess.Popen(words, stdout=out, preexec_fn=lambda: resource.setrlimit(resource.RLIMIT_CPU, (LIMIT, LIMIT)))
        _, status, usage = os.wait4(process.pid, 0)
        return usage.ru_utime + usage.ru_stime, usage.ru_maxrss / 1024, os.waitstatus_to_exitcode(status)


def report(name, size, words):
    seconds, memory, status = timed(words)
    if status in (-signal.SIGXCPU, -signal.SIGKILL):
        print(f'  {name}: not done within {LIMIT} s', flush=True)
        return
    ended = '' if status == 0 else f', status {status}'
    print(f'  {name}: {seconds:.2f} s, {size / MIB / seconds:.1f} MiB/s, {memory:.0f} MiB{ended}', flush=True)


def main():
    words = argparse.ArgumentParser(description=__doc__, formatter_class=argparse.RawDescriptionHelpFormatter)
    words.add_argument('--cmd', default=os.path.join(HERE, '..', 'ngrun'))
    words.add_argument('--mib', type=int, default=64)
    given = words.parse_args()
    other = html5ever()
    for kind, size in rows(given.mib):
        with tempfile.TemporaryDirectory() as folder:
            maker = multiprocessing.Process(target=make, args=(kind, size, folder))
            maker.start()
            maker.join()
            template, application = (os.path.join(folder, x) for x in ('page.html', 'app.json'))
            length = os.path.getsize(template)
            print(f'{kind}: {length / MIB:.1f} MiB', flush=True)
            report('ngrun', length, [given.cmd, template, application])
            if other:
                report('html5ever, tokens alone', length, [other[1], 'tokens', template])
                report('html5ever, read and serialised', length, [other[1], 'tree', template])
    if other:
        shutil.rmtree(other[0])


if __name__ == '__main__':
    main()
