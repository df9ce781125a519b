#!/usr/bin/env python3
"""make.py: write the traces and the scripts (data/), their names (args) and every answer (stdout).

The answers of the scripts were worked out by hand from document 01; none is taken from the program. The calls by chance are answered by the
few lines of Python below, which hold the rules as the paper has them. Run it in this folder after a change."""
import os
import random

here = os.path.dirname(os.path.abspath(__file__))
cases = []
files = {}


def trace(*threads):
    """Each thread's operations: `0:=1` stores 1 at address 0, `0==1` loads it, `0==1:=2` swaps."""
    lines = []
    for number, operations in threads:
        for o in operations.split():
            lines.append(line(number, o))
    return ''.join(lines)


def line(number, o):
    if o == 'sync':
        return f'{number}: sync\n'
    address = o.split(':')[0].split('=')[0]
    if '==' in o and ':=' in o:
        read, written = o[len(address) + 2:].split(':=')
        return f'{number}: {{ M[{address}] == {read}; M[{address}] := {written} }}\n'
    if '==' in o:
        return f'{number}: M[{address}] == {o[len(address) + 2:]}\n'
    return f'{number}: M[{address}] := {o[len(address) + 2:]}\n'


def case(name, text, script, talk):
    """talk: a call to a line, and its answer behind ` -> `. Nothing is answered to a forgery."""
    files[name] = text
    calls = []
    for entry in talk.strip().split('\n'):
        call, _, answer = entry.strip().partition(' -> ')
        calls.append((call, f'{call}: {answer}' if answer else call))
    files[script] = ''.join(c + '\n' for c, _ in calls)
    cases.append((name, script, ''.join(a + '\n' for _, a in calls)))


# The trace KNOT of document 01. It is not contradicted; 2 before 8 contradicts it, so does 8 before 2 alone; taking back clears it. By program
# order 0 is before 1; nothing holds 2 and 8 in either order.
KNOT = trace((0, '1:=11 5==1 0:=2 8:=1 sync 2==21'), (1, '2:=21 7==1 0:=1 6:=1 sync 1==11'), (2, '1:=12 5:=1'), (3, '6==1 1==12'), (4, '2:=22 7:=1'), (5, '8==1 2==22'))
case('knot', KNOT, 'knot-talk', '''
open 1 -> done
ask 2 8 -> not held
ask 8 2 -> not held
ask 0 5 -> held
suppose 2 8 -> done, contradicted
ask 2 8 -> contradicted
ask 0 5 -> contradicted
take back -> done
ask 2 8 -> not held
ask 0 5 -> held
suppose 8 2 -> done, contradicted
suppose 0 5 -> done, contradicted
ask 8 2 -> contradicted
take back -> done, contradicted
take back -> done
ask 8 2 -> not held
open 2 -> done
suppose 2 8 -> done, contradicted
take back -> done
suppose 8 2 -> done, contradicted
take back -> done
take back -> refused 16
''')

# Four stores of four cores: nothing is held but what is supposed. A pair that is held already is stacked like any other; one that was supposed
# twice is still held when it was taken back once. Refused calls in between change nothing. Record 4 is a fence.
FREE = trace((0, '0:=1'), (1, '1:=1'), (2, '2:=1'), (3, '3:=1 sync'))
case('free', FREE, 'free-talk', '''
open 1 -> done
ask 0 1 -> not held
suppose 0 1 -> done
ask 0 1 -> held
ask 1 0 -> not held
suppose 0 1 -> done
take back -> done
ask 0 1 -> held
suppose 1 2 -> done
ask 0 2 -> held
suppose 0 2 -> done
ask 0 2 -> held
take back -> done
ask 0 2 -> held
suppose 0 4 -> refused 13
suppose 4 4 -> refused 13
suppose 5 5 -> refused 13
suppose 0 65536 -> refused 13
suppose 2 2 -> refused 14
ask 0 4 -> refused 13
ask 4 4 -> refused 13
ask 3 3 -> refused 14
take back -> done
ask 0 2 -> not held
ask 0 1 -> held
take back -> done
ask 0 1 -> not held
take back -> refused 16
ask 1 1 -> refused 14
suppose 3 0 -> done
suppose 0 3 -> done, contradicted
ask 1 2 -> contradicted
ask 1 1 -> refused 14
suppose 1 2 -> done, contradicted
take back -> done, contradicted
take back -> done
ask 1 2 -> not held
ask 3 0 -> held
''')

# Sixteen pairs stand, a 17th does not; a 17th with bad numbers is 13 or 14. While contradicted too.
case('free', FREE, 'sixteen-talk', '''open 2 -> done
''' + '''suppose 0 1 -> done
suppose 1 2 -> done
''' * 8 + '''suppose 2 3 -> refused 15
suppose 0 1 -> refused 15
suppose 2 4 -> refused 13
suppose 2 2 -> refused 14
ask 0 2 -> held
ask 2 3 -> not held
take back -> done
suppose 2 0 -> done, contradicted
suppose 2 3 -> refused 15
ask 0 2 -> contradicted
''' + '''take back -> done
''' * 14 + '''ask 1 2 -> held
ask 0 2 -> held
take back -> done
ask 0 1 -> held
ask 1 2 -> not held
take back -> done
ask 0 1 -> not held
take back -> refused 16
''')

# Two writers of address 0, and a core that reads 1 and then 2. 0 is before 2 and 1 before 3 (rule 2), 2 before 3 (rule 1). So a chain leads from 0 to 3,
# whose source is 1: 0 before 1 (rule 6); then a chain leads from 0, the source of 2, to 1: 2 before 1 (rule 7). 1 before 2 closes a circle.
SEEN = trace((1, '0:=1'), (2, '0:=2'), (3, '0==1 0==2'))
case('seen', SEEN, 'seen-talk', '''
open 1 -> done
ask 0 1 -> held
ask 2 1 -> held
ask 1 0 -> not held
suppose 1 2 -> done, contradicted
take back -> done
ask 2 1 -> held
''')

# Two writers of address 0, and a reader of each in a core of its own: 0 before 2 and 1 before 3 (rule 2). Supposing 0 before 1 puts 2 before 1
# (rule 7), so 2 before 3. Supposing 2 before 1 makes the chain 0, 2, 1. With both supposed, taking one back leaves what the other forces; with neither,
# only rule 2's edges are held. Supposing 1 before 0 puts 3 before 0 (rule 7).
FOLLOW = trace((0, '0:=1'), (1, '0:=2'), (2, '0==1'), (3, '0==2'))
case('follow', FOLLOW, 'follow-talk', '''
open 1 -> done
ask 0 2 -> held
ask 2 1 -> not held
suppose 0 1 -> done
ask 2 1 -> held
ask 2 3 -> held
suppose 2 1 -> done
take back -> done
ask 2 1 -> held
take back -> done
ask 0 1 -> not held
ask 2 1 -> not held
ask 2 3 -> not held
ask 0 2 -> held
suppose 2 1 -> done
ask 0 1 -> held
suppose 1 2 -> done, contradicted
take back -> done
ask 0 1 -> held
take back -> done
suppose 1 0 -> done
ask 3 0 -> held
ask 1 2 -> held
ask 2 1 -> not held
''')

# A circular trace opens a contradicted session: the store buffers under SC. Under TSO it is not contradicted: 1 before 2 and 3 before 0.
BUFFERS = trace((0, '0:=1 1==0'), (1, '1:=1 0==0'))
case('buffers', BUFFERS, 'buffers-talk', '''
open 1 -> done, contradicted
ask 0 1 -> contradicted
ask 4 1 -> refused 13
take back -> refused 16
suppose 0 1 -> done, contradicted
take back -> done, contradicted
open 2 -> done
ask 1 2 -> held
ask 3 0 -> held
ask 0 1 -> not held
suppose 0 1 -> done
ask 3 2 -> held
suppose 2 3 -> done, contradicted
take back -> done
ask 3 2 -> held
''')

# No such model; a trace that is not well formed. Beside a refusal stands the session of the empty trace. A missing source refuses nothing: record 0 of
# the trace that is damaged in the second way waits, 0 before 1 and 2 before 3 (rule 1) and 1 before 2 (rule 4) close no circle.
case('buffers', BUFFERS, 'refused-talk', '''
open 0 -> refused 9
open 5 -> refused 9
open 255 -> refused 9
open damaged 1 1 -> refused 10
open damaged 1 3 -> refused 10
open damaged 2 4 -> refused 10
open damaged 5 1 -> refused 9
open damaged 1 2 -> done
waiting -> waits record 0
ask 0 3 -> held
open damaged 5 2 -> refused 9
ask 0 1 -> refused 13
suppose 0 0 -> refused 13
take back -> refused 16
''')
# Records 1 and 3 read what nobody wrote, 3 also what it writes itself. 0 is before 2 (rule 2), and before 1 by program order, which TSO lets off. When
# core 2 writes what 1 read, that is before 1 (rule 2). Nobody can write what 3 read, since it wrote that itself: 8.
case('no-source', trace((0, '0:=1 1==7'), (1, '0==1 2==5:=5')), 'no-source-talk', '''
open 1 -> done
waiting -> waits record 1
ask 0 2 -> held
ask 0 1 -> held
open 2 -> done
ask 0 1 -> not held
2: M[1] := 7 -> done
waiting -> waits record 3
ask 4 1 -> held
ask 1 4 -> not held
3: M[2] := 5 -> refused 8
take back -> refused 16
ask 4 1 -> held
''')
case('own-swap', trace((0, '0==5:=5')), 'own-swap-talk', '''
open 1 -> done
waiting -> waits record 0
''')

# Records as they come, under SC. Record 1 waits, so nothing is held of it, and 1 before 0 can be supposed. Its source is record 2: 2 before 1 (rule 2), and
# by the chain 2 before 0. Record 3 has the same source, and 0 is before it in program order: 0 before 2 (rule 3), which closes the circle 0, 2, 1 with the
# supposed pair. Taking back leaves the records: 0 before 2, 2 before 1 and 2 before 3 are held.
case('empty', '', 'come-talk', '''
open 1 -> done
waiting -> done
0: M[0] := 1 -> done
1: M[0] == 2 -> done
waiting -> waits record 1
ask 0 1 -> not held
suppose 1 0 -> done
ask 1 0 -> held
2: M[0] := 2 -> done
waiting -> done
ask 2 1 -> held
ask 2 0 -> held
0: M[0] == 2 -> done, contradicted
waiting -> done, contradicted
ask 2 1 -> contradicted
1: sync -> done, contradicted
suppose 0 4 -> refused 13
take back -> done
ask 0 2 -> held
ask 0 1 -> held
ask 2 3 -> held
ask 1 0 -> not held
take back -> refused 16
''')

# Memory begins with 7 at address 3. A number past its bound, the first value, a value written before; 0 may be written where memory begins with 7. The swap,
# record 3, reads the first value, so it is before both stores (rule 4). Cores may come in any order. The lowest number is told.
case('first', 'init: M[3] := 7\n0: M[3] := 1\n', 'first-talk', '''
open 2 -> done
8: M[3] := 7 -> refused 4
0: M[16] := 1 -> refused 4
255: sync -> refused 4
1: M[3] := 7 -> refused 6
1: M[0] := 0 -> refused 6
1: M[3] := 1 -> refused 8
{ -> no such call
1: M[3] := 0 -> done
1: M[3] == 0 -> done
waiting -> done
2: { M[3] == 7; M[3] := 5 } -> done
ask 3 0 -> held
ask 3 1 -> held
ask 0 1 -> not held
5: sync -> done
7: M[15] == 65535 -> done
waiting -> waits record 5
suppose 5 0 -> done
6: M[15] := 65535 -> done
ask 6 0 -> held
waiting -> done
''')

# A full trace takes no record more: 7, but 4 and 6 come first; 8 does not.
case('full', '0: M[0] := 1\n' + '0: sync\n' * 255, 'full-talk', '''
open 1 -> done
0: sync -> refused 7
0: M[0] := 1 -> refused 7
0: M[1] := 0 -> refused 6
9: M[1] := 0 -> refused 4
1: M[5] == 9 -> refused 7
waiting -> done
''')
case('empty', '', 'empty-talk', '''
open 2 -> done
ask 0 0 -> refused 13
suppose 0 1 -> refused 13
take back -> refused 16
''')

# Twelve forgeries, each met by 12 in every call, whatever else is wrong with the call or the record.
case('knot', KNOT, 'forged-talk', ''.join(f'''
open 1 -> done
forge {way}
ask 2 8 -> refused 12
suppose 2 8 -> refused 12
suppose 4 4 -> refused 12
ask 99 0 -> refused 12
take back -> refused 12
9: M[0] := 0 -> refused 12
0: M[9] := 9 -> refused 12
waiting -> refused 12
'''.lstrip() for way in range(1, 13)))


# The rules, for the calls by chance.
def parsed(text):
    records = []
    for entry in text.splitlines():
        thread, _, rest = entry.partition(': ')
        if rest == 'sync':
            records.append((int(thread), None, None, None))
        elif rest.startswith('{'):
            a, b = rest[2:-2].split('; ')
            records.append((int(thread), int(a[2:a.index(']')]), int(a.split('== ')[1]), int(b.split(':= ')[1])))
        elif '==' in rest:
            records.append((int(thread), int(rest[2:rest.index(']')]), int(rest.split('== ')[1]), None))
        else:
            records.append((int(thread), int(rest[2:rest.index(']')]), None, int(rest.split(':= ')[1])))
    return records


def chains(n, edges):
    rows = [set() for _ in range(n)]
    for x, y in edges:
        rows[x].add(y)
    for k in range(n):
        for x in range(n):
            if k in rows[x]:
                rows[x] |= rows[k]
    return rows


def closing(records, model, pairs):
    """The chains of the last round, or nothing where it has a circle."""
    n = len(records)
    ops = [x for x in range(n) if records[x][1] is not None]
    earlier = lambda x, y: x < y and records[x][0] == records[y][0]
    edges = set(pairs)
    for x in ops:
        for y in ops:
            if earlier(x, y):
                fence = any(records[i][1] is None and records[i][0] == records[x][0] for i in range(x + 1, y))
                let_off = model == 2 and records[x][2] is None and records[y][3] is None and not fence
                if not let_off:
                    edges.add((x, y))
    loads = []
    for l in ops:
        if records[l][2] is None:
            continue
        writers = [s for s in ops if s != l and records[s][3] is not None and records[s][1] == records[l][1]]
        if records[l][2] == 0:
            for s in writers:
                edges.add((l, s))
                if earlier(s, l):
                    edges.add((s, l))
            continue
        source = [s for s in writers if records[s][3] == records[l][2]][0]
        if not earlier(source, l):
            edges.add((source, l))
        others = [s for s in writers if s != source]
        for s in others:
            if earlier(s, l):
                edges.add((s, source))
        loads.append((l, source, others))
    while True:
        rows = chains(n, edges)
        if any(x in rows[x] for x in ops):
            return None
        added = set(edges)
        for l, source, others in loads:
            for s in others:
                if l in rows[s]:
                    added.add((s, source))
                if s in rows[source]:
                    added.add((l, s))
        if added == edges:
            return rows
        edges = added


def by_chance(text, model, calls, seed):
    records = parsed(text)
    n = len(records)
    good = lambda x: x < n and records[x][1] is not None
    pairs, rows = [], closing(records, model, [])
    told = dict.fromkeys(['done', 'held', 'not held', 'contradicted', 'refused'], 0)
    for _ in range(calls):
        drawn = []
        for _ in range(3):
            seed = (seed * 1103515245 + 12345) % 2 ** 31
            drawn.append(seed // 65536)
        what, x, y = drawn[0] % 16, drawn[1] % (n + 2), drawn[2] % (n + 2)
        if 5 <= what < 10:
            answer = 'done' if pairs else 'refused'
            pairs = pairs[:-1]
        elif not (good(x) and good(y)) or x == y:
            answer = 'refused'
        elif what < 5:
            answer = 'done' if len(pairs) < 16 else 'refused'
            pairs = (pairs + [(x, y)])[:16]
        else:
            answer = 'contradicted' if rows is None else 'held' if y in rows[x] else 'not held'
        if answer == 'done':
            rows = closing(records, model, pairs)
        told[answer] += 1
    return told


def ran(draw, size, threads, addresses):
    """A trace that some order under SC has: each load reads the latest value."""
    memory, latest, lines = {}, 1, [[] for _ in range(threads)]
    for _ in range(size):
        thread, address, what = draw.randrange(threads), draw.randrange(addresses), draw.randrange(10)
        now = memory.get(address, 0)
        if what < 4:
            lines[thread].append(f'{address}=={now}')
        elif what < 8:
            memory[address] = latest
            lines[thread].append(f'{address}:={latest}')
        elif what < 9:
            memory[address] = latest
            lines[thread].append(f'{address}=={now}:={latest}')
        else:
            lines[thread].append('sync')
        latest += 1
    return trace(*((t, ' '.join(l)) for t, l in enumerate(lines)))


draw = random.Random(5)
for size, calls in [(5, 400), (6, 400), (8, 400), (10, 400), (13, 300), (17, 300), (22, 300), (28, 200), (36, 200), (45, 150), (55, 120), (64, 100)]:
    text = ran(draw, size, 2 + size // 12, 1 + size // 8)
    talk = []
    for model, seed in [(1, size), (2, size + 1000)]:
        told = by_chance(text, model, calls // 2, seed)
        talk.append(f'open {model} -> done')
        counts = ', '.join(f'{k} {v}' for k, v in told.items())
        talk.append(f'chance {calls // 2} {seed} -> right {calls // 2}, {counts}')
    case(f'chance-{size}', text, f'chance-{size}-talk', '\n'.join(talk))

os.makedirs(os.path.join(here, 'data'), exist_ok=True)
for name in os.listdir(os.path.join(here, 'data')):
    os.remove(os.path.join(here, 'data', name))
for name, text in files.items():
    with open(os.path.join(here, 'data', name), 'w') as out:
        out.write(text)
with open(os.path.join(here, 'args'), 'w') as out:
    out.write(''.join(f'{name}\n{script}\n' for name, script, _ in cases))
with open(os.path.join(here, 'stdout'), 'w') as out:
    out.write(''.join(f'{name} {script}\n{answers}' for name, script, answers in cases))
