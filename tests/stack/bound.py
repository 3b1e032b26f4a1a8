#!/usr/bin/env python3
"""The most stack that a call of each function can take, read out of the compiled archive.

  bound.py ARCHIVE HEADER [TOOLS]    prints a table in Markdown; status 1 where something cannot be read

TOOLS is what the name of objdump for x86-64 begins with. Every path through a function is walked, whether a call takes it or not,
and the stack pointer is followed over pushes, pops, additions and subtractions. A bound is counted from the caller's stack pointer
before it puts arguments down, in whole words of 8 bytes: arguments on the stack, return address, all that is pushed or kept, the
red zone, and the deepest function that is called. A function that the header asks of the host counts with its return address alone.

What is believed of the compiler: it keeps nothing further down than the red zone's 128 bytes, and nothing there in a function that
makes calls; and a jump out of a table goes where one of the table's entries leads. Where a function without calls takes an address on
its stack, or writes there by an index, the whole red zone counts.
"""
import collections
import re
import subprocess
import sys

WORD = 8
RED_ZONE = 128
REGISTERS_OF_ARGUMENTS = 6

Instruction = collections.namedtuple('Instruction', 'address name operands symbol table')  # table: where a jump out of one leads
Frame = collections.namedtuple('Frame', 'kept red calls stores')  # calls: (function, bytes above its return address)
Bound = collections.namedtuple('Bound', 'bytes path')

FUNCTION = re.compile(r'[0-9a-f]+ <(.+)>:$')
INSTRUCTION = re.compile(r' +([0-9a-f]+):\t(?:(?:notrack|bnd|rep\w*|lock|data16|[c-gs]s) )*(\w+) *([^#]*)')
RELOCATION = re.compile(r'\t+[0-9a-f]+: R_X86_64_\w+\t(?:\.text\.)?(.+)$')
SECTION = re.compile(r'RELOCATION RECORDS FOR \[(.+)\]:$')
ENTRY = re.compile(r'([0-9a-f]+) R_X86_64_PC32 +\.text\.(.+)\+0x([0-9a-f]+)$')
TABLE = re.compile(r'(\.rodata\..+?)(?:\+0x([0-9a-f]+) and 4 bytes)?$')
OUT_OF_TABLE = re.compile(r'lea 0x0\(%rip\),(%\w+); movslq \(\1,%\w+,4\),(%\w+); add \1,\2; jmp \*\2')
ON_STACK = re.compile(r'(-?0x[0-9a-f]+)?\(%rsp(,%\w+,\d)?\)')
STACK_POINTER = re.compile(r'%[re]?spl?\b')


class Unreadable(Exception):
    """Something of which no bound can be told."""


def said(*words):
    return subprocess.run(words, check=True, capture_output=True, text=True).stdout.splitlines()


def entries(archive, tools):
    """section -> place in it -> function and number, of every number in it that tells of a place in a function, from there on."""
    found, section = {}, {}
    for line in said(tools + 'objdump', '-r', archive):
        head, one = SECTION.match(line), ENTRY.match(line)
        if head:
            section = found.setdefault(head.group(1), {})
        elif one:
            section[int(one.group(1), 16)] = (one.group(2), int(one.group(3), 16))
    return found


def table_of(one):
    """Section and place of the table that an instruction refers to; None where it refers to no such place."""
    place = TABLE.match(one.symbol or '')
    return place and (place.group(1), int(place.group(2), 16) + 4 if place.group(2) else 0)


def leads(name, body, at, tables):
    """Where a jump out of a table goes on, which the three instructions before it prepare; nowhere where it is no such jump, or an entry
    leads out of the function. A table ends where the next begins, or where there is no entry."""
    told = '; '.join('%s %s' % (one.name, one.operands) for one in body[max(0, at - 3):at + 1])
    if not OUT_OF_TABLE.fullmatch(told) or not table_of(body[at - 3]):
        return ()
    section, start = table_of(body[at - 3])
    others = {table_of(one) for one in body} - {(section, start)}
    found, place = [], start
    while place in tables.get(section, {}) and (section, place) not in others:
        found.append(tables[section][place])
        place += 4
    return tuple(number - 4 * i for i, (_, number) in enumerate(found)) if all(of == name for of, _ in found) else ()


def functions(archive, tools):
    """name -> instructions, of every function in the archive; a symbol that an instruction refers to stands with it."""
    tables = entries(archive, tools)
    bodies = listed(archive, tools)
    return {name: [one._replace(table=leads(name, body, at, tables)) for at, one in enumerate(body)] for name, body in bodies.items()}


def listed(archive, tools):
    """The same without the tables."""
    found, body = {}, None
    for line in said(tools + 'objdump', '-dr', '--no-show-raw-insn', archive):
        head, one, refers = FUNCTION.match(line), INSTRUCTION.match(line), RELOCATION.match(line)
        if head:
            if head.group(1) in found:
                raise Unreadable('two functions are called %s' % head.group(1))
            body = found[head.group(1)] = []
        elif one:
            body.append(Instruction(int(one.group(1), 16), one.group(2), one.group(3).strip(), None, ()))
        elif refers:
            # A call is relative to what follows it, 4 bytes on; any other addend is no function's start.
            start = re.fullmatch('(.+)-0x4', refers.group(1))
            body[-1] = body[-1]._replace(symbol=start.group(1) if start else refers.group(1) + ' and 4 bytes')
    return found


def moved(one, depth):
    """The depth behind an instruction that is no jump."""
    if one.name.startswith('push'):
        return depth + WORD
    if not STACK_POINTER.search(re.sub(r'\(.*?\)', '', one.operands)) and one.name not in ('leave', 'enter'):
        return depth - WORD if one.name.startswith('pop') else depth
    by = re.fullmatch(r'\$?(-?0x[0-9a-f]+)(?:\(%rsp\))?,%rsp', one.operands)
    if by and one.name in ('add', 'sub', 'lea'):
        return depth + int(by.group(1), 16) * (1 if one.name == 'sub' else -1)
    if one.name in ('mov', 'cmp', 'test') and one.operands.startswith('%rsp,'):
        return depth
    raise Unreadable('moves the stack pointer by %s %s' % (one.name, one.operands))


def stored(one):
    """What an instruction writes to the stack besides pushes, or that it takes an address there; None where it does neither."""
    place = ON_STACK.search(one.operands)
    if one.operands.startswith('%rsp,') or one.name == 'lea' and place and not one.operands.endswith('%rsp'):
        return 'address'
    if not place or not one.operands.endswith(place.group()) or one.name.startswith(('cmp', 'test', 'push', 'call')):
        return None
    return 'constant' if one.operands.startswith('$') else 'vector' if one.operands.startswith('%xmm') else 'register'


def reach(one, depth, makes_calls):
    """How far below the caller's stack pointer an instruction may write, or lets others write."""
    place, kind = ON_STACK.search(one.operands), stored(one)
    if not makes_calls and (kind == 'address' or kind and place.group(2)):
        return depth + RED_ZONE
    return depth - min(0, int(place.group(1) or '0', 16)) if place else depth


def called(one):
    """The function that an instruction calls or jumps to; None where it does neither."""
    is_call = one.name.startswith('call')
    if one.table or not is_call and not one.name.startswith(('j', 'loop')):
        return None
    if '*' in one.operands:
        raise Unreadable('%s by a pointer, %s' % ('calls' if is_call else 'jumps', one.operands))
    if is_call and not one.symbol:
        return re.sub('.*<(.+)>', r'\1', one.operands)
    return one.symbol


def ways(one, depth, inside):
    """Where an instruction goes on inside its function: addresses, None for the next one, each with the depth there."""
    if one.name.startswith('ret') or called(one) and not one.name.startswith('call'):
        if depth != WORD:
            raise Unreadable('leaves %d bytes on the stack at %x' % (depth - WORD, one.address))
    if one.name.startswith('ret') or one.name == 'ud2':
        return []
    onward = [] if one.name.startswith('jmp') else [(None, moved(one, depth))]
    if one.name.startswith(('j', 'loop')) and not called(one):
        onward += [(to, depth) for to in one.table or [int(one.operands.split(' ')[0], 16)]]
    if not all(to is None or to in inside for to, _ in onward):
        raise Unreadable('jumps out of itself at %x' % one.address)
    return onward


def frame(body):
    """What one function keeps on the stack, over every path through it, and whom it calls from how far down."""
    inside = {one.address: at for at, one in enumerate(body)}
    depths, calls, todo = {}, set(), [(0, WORD)]
    while todo:
        at, depth = todo.pop()
        if at == len(body):
            raise Unreadable('runs past its end')
        if depths.setdefault(at, depth) != depth:
            raise Unreadable('comes to %x with the stack pointer in two places' % body[at].address)
        if called(body[at]):
            calls.add((called(body[at]), depth if body[at].name.startswith('call') else 0))
        for to, then in ways(body[at], depth, inside):
            goes = at + 1 if to is None else inside[to]
            if depths.get(goes) != then:
                todo.append((goes, then))
    kept = max(depths.values())
    makes_calls = any(depth for _, depth in calls)
    lowest = max(reach(body[at], depth, makes_calls) for at, depth in depths.items())
    stores = collections.Counter(stored(body[at]) for at in depths if stored(body[at]))
    return Frame(kept - WORD, max(0, lowest - kept), calls, stores)


def bound(name, frames, host, above=()):
    """A function's bound from its return address down."""
    if name in host:
        return Bound(WORD, (name,))
    if name in above:
        raise Unreadable('%s comes to itself again' % name)
    if name not in frames:
        raise Unreadable('%s calls %s, which is neither in the archive nor asked of the host' % (above[-1], name))
    own = frames[name]
    deepest = Bound(-(-(WORD + own.kept + own.red) // WORD) * WORD, ())
    for other, depth in sorted(own.calls, key=lambda call: (call[0] in host, call)):
        below = bound(other, frames, host, above + (name,))
        if depth + below.bytes > deepest.bytes:
            deepest = Bound(depth + below.bytes, below.path)
    return deepest._replace(path=(name,) + deepest.path)


def words_of(text, sizes):
    """How many words a value of this type takes among the arguments."""
    if '*' in text or text.split()[0] in ('size_t', 'uint8_t', 'uint16_t', 'uint32_t', 'uint64_t'):
        return 1
    if text.split()[0] not in sizes:
        raise Unreadable('cannot count the argument %s' % text)
    return -(-sizes[text.split()[0]] // WORD)


def declared(header):
    """name -> bytes of its arguments that go by the stack, of every function in the header; and the functions of the host."""
    text = open(header, encoding='utf-8').read()
    host = set(re.findall(r'\w+', re.search(r'Needed of the host: ([a-z, ]+)\.', text).group(1)))
    text = re.sub(r'/\*.*?\*/', '', text, flags=re.S)
    sizes = {name: int(size) for name, size in re.findall(r'(?m)^PIONGSEUT_HAS_SIZE\((\w+), (\d+)\)', text)}
    arguments = {}
    for answer, name, given in re.findall(r'(?m)^(\w+) (piongseut_\w+)\(([^)]*)\);', text):
        left, stacked = REGISTERS_OF_ARGUMENTS - (sizes[answer] > 2 * WORD), 0
        for one in given.split(',') if given != 'void' else []:
            words = words_of(re.sub(r'\bconst\b', '', one).strip(), sizes)
            # a struct of more than two words goes by the stack, whatever registers are left
            left, stacked = (left - words, stacked) if words <= min(left, 2) else (left, stacked + words)
        arguments[name] = (stacked + stacked % 2) * WORD  # the stack pointer is a multiple of 16 at a call
    return arguments, host


def each(names, of):
    """name -> what `of` makes of it; all that cannot be read is told together."""
    made, problems = {}, []
    for name in names:
        try:
            made[name] = of(name)
        except Unreadable as why:
            problems.append(str(why) if str(why).startswith(name) else '%s %s' % (name, why))
    return made, problems


def read(archive, header, tools):
    """bytes of arguments by the stack, frames, bounds with these arguments, and the functions of the host."""
    arguments, host = declared(header)
    bodies = functions(archive, tools)
    frames, problems = each(bodies, lambda name: frame(bodies[name]))
    leaves = host | (set(bodies) - set(frames))  # a function that cannot be read is told once, not with each that calls it
    bounds, more = each(frames, lambda name: bound(name, frames, leaves))
    problems += more + ['the archive has no %s' % name for name in arguments if name not in bodies]
    if problems:
        raise Unreadable('\n'.join(problems))
    return arguments, frames, {n: b._replace(bytes=b.bytes + arguments.get(n, 0)) for n, b in bounds.items()}, host


def table(arguments, frames, bounds, host):
    form = '| %-27s | %9s | %5s | %8s | %5s | %-27s | %-15s | %-44s |'
    rows = [form % ('function', 'arguments', 'frame', 'red zone', 'bound', 'deepest through', 'of the host', 'written there'),
            form % ('---', '---:', '---:', '---:', '---:', '---', '---', '---')]
    for name in list(arguments) + sorted(n for n in frames if n not in arguments):
        own, path = frames[name], bounds[name].path[1:]
        asked = sorted('`%s` at %d' % (n, d + WORD + arguments.get(name, 0)) for n, d in own.calls if n in host)
        rows.append(form % ('`%s`' % name, arguments.get(name, '-'), own.kept, own.red, bounds[name].bytes,
                            ', '.join('`%s`' % n for n in path), ', '.join(asked),
                            ', '.join('%s %d' % store for store in sorted(own.stores.items()))))
    return rows


if __name__ == '__main__':
    if len(sys.argv) not in (3, 4):
        sys.exit(__doc__)
    try:
        print('\n'.join(table(*read(sys.argv[1], sys.argv[2], (sys.argv + [''])[3]))))
    except Unreadable as reason:
        sys.exit(str(reason))
