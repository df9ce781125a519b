#!/usr/bin/env python3
"""make.py: write the traces (data/), their names (args) and what the rules force in each (stdout).

The answers for SC and TSO were worked out by hand from document 01's eight rules. Those for PSO and WMO come from a reading of the rules and of the pairs that
each model lets off in Python, which gives the SC and TSO answers too; of them only star-message was gone through by hand. None is taken from the program. Run it in this folder after a change."""
import os

here = os.path.dirname(os.path.abspath(__file__))
cases = []


def circle(numbers, rules, at=0):
    """at: the first round that has a circle."""
    return f'round {at}, circle {numbers} by {rules}'


def held(pairs, at=0):
    """at: the round after which nothing is added."""
    return f'round {at}, held' + ''.join(' ' + p for p in pairs.split())


def case(name, text, sc, tso=None, pso=None, wmo=None):
    """A model that is left out answers as the one before it."""
    tso = tso or sc
    pso = pso or tso
    cases.append((name, text, sc, tso, pso, wmo or pso))


def trace(*threads):
    """Each thread's operations, written as in the paper's list of traces: `0:=1` stores 1 at address 0, `0==1` loads it, `0==1:=2` swaps."""
    lines = []
    for number, operations in threads:
        for o in operations.split():
            if o == 'sync':
                lines.append(f'{number}: sync')
                continue
            address = o.split(':')[0].split('=')[0]
            if '==' in o and ':=' in o:
                read, written = o[len(address) + 2:].split(':=')
                lines.append(f'{number}: {{ M[{address}] == {read}; M[{address}] := {written} }}')
            elif '==' in o:
                lines.append(f'{number}: M[{address}] == {o[len(address) + 2:]}')
            else:
                lines.append(f'{number}: M[{address}] := {o[len(address) + 2:]}')
    return ''.join(line + '\n' for line in lines)


# the starred traces of document 01
case('star-empty', '', held(''))
case('star-buffers', trace((0, '0:=1 1==0'), (1, '1:=1 0==0')), circle('0 1 2 3', '1 4 1 4'), held('1-2 3-0'))
case('star-fences', trace((0, '0:=1 sync 1==0'), (1, '1:=1 sync 0==0')), circle('0 2 3 5', '1 4 1 4'))
case('star-message', trace((0, '0:=1 1:=1'), (1, '1==1 0==0')), circle('0 1 2 3', '1 2 1 4'),
     pso=held('1-0 1-2 1-3 2-0 2-3 3-0'), wmo=held('1-2 3-0'))
case('star-own-store', trace((0, '0:=1 0==0')), circle('0 1', '1 4'), circle('0 1', '5 4'))
case('star-back-in-time', trace((0, '1:=1'), (1, '1==0 1==1 1==0')), circle('0 2 3', '2 1 4'))
case('star-seen-early', trace((0, '0:=1 0==1 1==0'), (1, '1:=1 1==1 0==0')), circle('0 2 3 5', '1 4 1 4'), held('1-2 1-3 2-3 4-0 4-5 5-0'),
     wmo=held('2-3 5-0'))
case('star-swaps', trace((1, '3:=31'), (0, '3==31:=178 3==178:=198'), (1, '3==178:=59')), circle('2 3', '7 7', 1))
case('star-no-source', trace((0, '0==5:=5')), held(''))

# rule 2: a source is before its load; also one that stands later in the load's own thread
case('rule-2-held', trace((0, '0:=1'), (1, '0==1')), held('0-1'))
case('rule-2-circle', trace((0, '0==1 0:=1')), circle('0 1', '1 2'))

# rule 3: a load's own earlier store is before the source that the load reads instead
case('rule-3-held', trace((0, '0:=1 0==2'), (1, '0:=2')), held('0-1 0-2 2-1'))
case('rule-3-circle', trace((1, '0:=2 1:=1'), (0, '1==1 0:=1 0==2')), circle('0 1 2 3', '1 2 1 3'),
     pso=held('0-4 1-0 1-2 1-3 1-4 2-0 2-3 2-4 3-0 3-4'), wmo=held('0-4 1-2 3-0 3-4'))

# rule 4: a load of the first value is before every store to its address
case('rule-4-held', trace((0, '0==0'), (1, '0:=1')), held('0-1'))
case('rule-4-circle', trace((0, '0:=1'), (1, '0==1 0==0')), circle('0 1 2', '2 1 4'))

# rule 5: and an earlier store of its own is before it, so that the two close a circle
case('rule-5-far', trace((0, '0:=1 1:=1 0==0')), circle('0 2', '1 4'), circle('0 2', '5 4'))
case('rule-5-swap', trace((0, '0:=1 0==0:=2')), circle('0 1', '1 4'))

# rule 6: a chain to the load puts another writer before the source, a round later
case('rule-6-held', trace((0, '0:=1 1:=1'), (1, '1==1 0==2'), (2, '0:=2')), held('0-1 0-2 0-3 0-4 1-2 1-3 2-3 4-3', 1),
     pso=held('1-2 1-3 2-3 4-3'), wmo=held('1-2 4-3'))
case('rule-6-short', trace((0, '0:=1 0:=2 1:=1'), (1, '1==1 0==1')), circle('0 1', '1 6', 1),
     pso=held('0-1 0-4 2-1 2-3 2-4 3-1 3-4 4-1', 1), wmo=held('0-1 0-4 2-3 4-1', 1))
case('rule-6-twice', trace((2, '0==1 0==2'), (0, '1==1 0:=1'), (1, '0:=2 1:=1')), circle('3 4', '6 6', 1),
     pso=held('0-1 0-4 2-0 2-1 2-3 2-4 3-0 3-1 3-4 4-1 5-0 5-1 5-2 5-3 5-4', 2), wmo=held('0-1 0-4 3-0 3-1 3-4 4-1 5-2', 2))
case('rule-6-with-7', trace((2, '0:=2 2:=1'), (0, '2==1 0:=1 1:=1'), (1, '1==1 0==2')), circle('0 6 3', '2 7 6', 1),
     pso=held('0-6 1-2 1-3 1-4 1-5 1-6 2-3 2-4 2-5 2-6 4-5 4-6 5-6'), wmo=held('0-6 1-2 4-5'))

# rule 7: a chain from the source puts the load before another writer, a round later; never a swap before itself
case('rule-7-held', trace((0, '0:=1 0:=2'), (1, '0==1')), held('0-1 0-2 2-1', 1))
case('rule-7-swap', trace((0, '0:=1 0:=2'), (1, '0==1:=3')), held('0-1 0-2 2-1', 1))

folder = os.path.join(here, 'data')
os.makedirs(folder, exist_ok=True)
for old in os.listdir(folder):
    os.remove(os.path.join(folder, old))
for name, text, *_ in cases:
    with open(os.path.join(folder, name), 'w') as out:
        out.write(text)
with open(os.path.join(here, 'args'), 'w') as out:
    out.write(''.join(name + '\n' for name, *_ in cases))
with open(os.path.join(here, 'stdout'), 'w') as out:
    out.write(''.join(f'{name} {model}: {told}\n' for name, _, *every in cases for model, told in zip(('SC', 'TSO', 'PSO', 'WMO'), every)))
print(len(cases), 'cases')
