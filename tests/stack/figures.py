#!/usr/bin/env python3
"""Holds the figures of the stack against each other and tells which differ.

  figures.py ARCHIVE HEADER PAGE PAINTED LIMIT [TOOLS]

Of every function of the header: what was seen in PAINTED (lines of name, bytes, calls) is at most the bound that bound.py reads out
of the archive; the bound is at most LIMIT; the header says the bound; PAGE, which is docs/PERFORMANCE.md, says both.
"""
import re
import sys

import bound


class Checks:
    def __init__(self):
        self.passed = self.failed = 0

    def hold(self, right, words):
        self.passed += bool(right)
        self.failed += not right
        if not right:
            print('not ok: ' + words)


def painted_figures(path):
    lines = [line.split() for line in open(path, encoding='utf-8') if line.startswith('piongseut_')]
    return {name: (int(size), int(calls)) for name, size, calls in lines}


def header_figures(path):
    """The functions that the header names with a figure, and its figure for all others."""
    text = re.sub(r'\n \* +', ' ', open(path, encoding='utf-8').read())
    said = re.search(r'- Stack, with .*?: (.*?) \(', text).group(1)
    return dict(re.findall(r'(piongseut_\w+) (\d+)', said)), re.search(r'every other function (\d+) or less', said).group(1)


def page_rows(path):
    """The rows of all tables of a page: what stands below each heading."""
    rows, heads = [], None
    for line in open(path, encoding='utf-8'):
        cells = [cell.strip() for cell in line.strip().strip('|').split('|')]
        if not line.startswith('|'):
            heads = None
        elif heads is None:
            heads = cells
        else:
            rows.append(dict(zip(heads, cells)))
    return rows


def hold_header(checks, path, bounds, names):
    named, others = header_figures(path)
    for name in names:
        if name in named:
            checks.hold(named[name] == str(bounds[name].bytes),
                        'the header says %s for %s, its bound is %d' % (named[name], name, bounds[name].bytes))
    most = max(bounds[name].bytes for name in names if name not in named)
    checks.hold(others == str(most), 'the header says %s or less for the other functions, the most of them is %d' % (others, most))


def hold_page(checks, path, painted, lines):
    rows = page_rows(path)
    measured = {row['function'].strip('`'): row for row in rows if 'deepest' in row}
    for name, (size, _) in painted.items():
        said = measured.get(name, {'deepest': 'nothing', 'own': 0, 'arguments': 0})
        checks.hold(said['deepest'] == str(size), 'the page says %s measured for %s, it is %d' % (said['deepest'], name, size))
        checks.hold(int(said['own']) + int(said['arguments']) == size,
                    'the page says %s own and %s arguments for %s, together it is %d' % (said['own'], said['arguments'], name, size))
    on_page = [' | '.join(row.values()) for row in rows if 'bound' in row and '---' not in row['function']]
    in_archive = [' | '.join(cell.strip() for cell in line.strip('|').split('|')) for line in lines[2:]]
    for row in in_archive:
        checks.hold(row in on_page, 'the page has no bound %s (run write puts it there)' % row)
    for row in on_page:
        checks.hold(row in in_archive, 'the page has the bound %s, the archive does not' % row)


def main():
    if len(sys.argv) not in (6, 7):
        sys.exit(__doc__)
    archive, header, page, paint, limit, tools = (sys.argv + [''])[1:7]
    checks = Checks()
    try:
        arguments, frames, bounds, host = bound.read(archive, header, tools)
    except bound.Unreadable as why:
        sys.exit('not ok: ' + str(why))
    painted = painted_figures(paint)
    for name in arguments:
        size, calls = painted.get(name, (0, 0))
        most = bounds[name].bytes
        print('%s: %d bytes seen in %d calls, bound %d' % (name, size, calls, most))
        checks.hold(calls > 0, '%s was not called' % name)
        checks.hold(size <= most, '%s took %d bytes, its bound is %d' % (name, size, most))
        checks.hold(size <= int(limit), '%s took %d bytes, the limit is %s' % (name, size, limit))
        checks.hold(most <= int(limit), '%s has the bound %d, the limit is %s' % (name, most, limit))
    hold_header(checks, header, bounds, arguments)
    hold_page(checks, page, painted, bound.table(arguments, frames, bounds, host))
    print('figures: %d passed, %d failed' % (checks.passed, checks.failed))
    return checks.failed > 0


if __name__ == '__main__':
    sys.exit(main())
