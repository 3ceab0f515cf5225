#!/usr/bin/env python3
"""Tests pages of runs in a headless Chromium.

    scripts/test_page.py HHEAP HHVIEW [EXAMPLE ..]

HHEAP and HHVIEW are the built programs. Of each example's page, of a run with large objects, of 255 tasks none of which
runs, and of a sort of 330 numbers with 5,000 entries (of these two each eleventh): no script fails and nothing is asked
of a network, at any entry, forwards and backwards; each state is the same on the way back; keys, the search and links to
entries lead where they say; and at each tenth entry after a `ran`, where the trace is cut, the tasks, the objects at rest
with their fields, the chunks with what lies in each, and the remembered fields are those of `hheap image`. An image
doesn't have what tasks hold: from the roots on the page, and the fields of objects above, just those objects of a heap
are reached that its leaf collection keeps, and just those of which its marking is. An entry takes 200 bytes at most on
the examples' mean. Without a browser the test is left out, which a line says.
"""
import json
import os
import subprocess
import sys
import tempfile
import time

TOP = os.path.dirname(os.path.dirname(os.path.abspath(__file__)))
sys.path.insert(0, os.path.join(TOP, 'scripts'))
sys.dont_write_bytecode = True
import browser                                                              # noqa: E402

CHUNK = 1024
MOST_BYTES = 200
RUNS = {
    'fork.hh': ['--workers', '2'], 'down_pointer.hh': [], 'entangled.hh': [], 'lifted_field.hh': ['--leaf', '16'],
    'leaf_collection.hh': ['--leaf', '256'], 'inner_collection.hh': ['--inner', '512'], 'freeze.hh': [], 'cas.hh': [],
    'sort.hh': ['--workers', '4'], 'squares.hh': [], 'trap_div.hh': [], 'no_chunks.hh': ['--chunks', '32'],
    'queens.hh': ['--workers', '4'], 'graph.hh': ['--workers', '3', '--leaf', '64', '--inner', '64'],
}
LARGE = 'large objects'
LARGE_OPTIONS = ['--leaf', '500', '--inner', '100', '--chunks', '30']
LARGE_TEXT = '''fn kid
  set i0 0
  set i1 3000
  newm r1 i0 i1
  set i3 500
  newm r2 i0 i3
  newm r3 i0 i1
  movr r0 r1
end
fn main
  set i0 1
  set i1 1500
  newm r5 i0 i1
  newm r6 i0 i1
  nil r6
  par kid kid
  set i4 0
  putr r5 i4 r0
  set i1 600
  set i0 0
  newm r7 i0 i1
  newm r7 i0 i1
  newm r7 i0 i1
end
'''
WIDE = 'wide tree'
WIDE_FORKS = 127
WIDE_OPTIONS = ['--workers', '16', '--fuel', str(5 * WIDE_FORKS + 2)]
WIDE_TEXT = '''fn grow
  jz i0 grown
  set i1 1
  newm r0 i1 i1
  sub i0 i0 i1
  par grow grow
lab grown
end
fn main
  set i0 7
  call grow
end
'''
LONG = 'sort of 330'
LONG_OPTIONS = ['--workers', '4', '--chunks', '65536']
LONG_CUTS = 12
MOST_COLLECTIONS = 40
LONG_STRIDE = 11
STATE = '''(() => { const S = hh.state; return {
  tasks: [...S.tasks.values()].filter(x => x.state !== 'joined').map(x => [String(x.t), x.state]),
  parents: [...S.tasks.values()].map(x => [x.t, x.parent]),
  roots: [...S.tasks.values()].map(x => [x.t, x.holds]),
  objects: [...S.objs.values()].map(o => [o.n, [hh.ownerOf(o.n), o.m, o.R, o.I, o.f]]),
  chunks: [...S.heaps].map(([t, h]) => [String(t), hh.chunksOf(t)]),
  noted: [...S.noted.values()] }; })()'''
DIGEST = '''JSON.stringify(Object.values(hh.state).map(m => [...m.entries()].sort((a, b) => String(a[0]) < String(b[0]) ? -1 : 1)))'''
BAD = '''(() => { const bad = [], S = hh.state, said = document.getElementById('said').textContent;
  for (const el of document.querySelectorAll('#stage .obj')) if (!S.objs.has(el.dataset.o)) bad.push('card ' + el.dataset.o);
  for (const x of S.tasks.values()) for (const n of x.holds) if (!S.objs.has(n)) bad.push('root ' + n);
  for (const el of document.querySelectorAll('#arrows path')) if (/NaN|undefined/.test(el.getAttribute('d'))) bad.push('arrow');
  if (!said || /undefined|NaN|null/.test(said)) bad.push(said);
  if (/undefined|NaN/.test(document.getElementById('stage').textContent)) bad.push('stage');
  return bad; })()'''
VISIT = '''(places => { const bad = [];
  for (const i of places) {
    hh.go(i);
    for (const x of BAD) bad.push([i, x]);
    if (i % KEPT) continue;
    const is = DIGEST;
    if (digests[i] === undefined) digests[i] = is;
    else if (digests[i] !== is) bad.push([i, 'another state on the way back']);
  }
  return bad; })(PLACES)'''.replace('BAD', BAD).replace('DIGEST', DIGEST)
TIMES = '''(() => { const times = [];
  for (let i = 0; i <= hh.N; i += Math.ceil(hh.N / 200)) { const t = performance.now(); hh.go(i); document.body.offsetHeight; times.push(performance.now() - t); }
  return times.sort((a, b) => a - b)[Math.floor(times.length / 2)]; })()'''


def output(*words, text=None):
    done = subprocess.run(words, input=text, capture_output=True, check=False)
    return done.returncode, done.stdout


def text_of(example):
    """The program, and the options of its run."""
    if example == LARGE:
        return LARGE_TEXT, LARGE_OPTIONS
    if example == WIDE:
        return WIDE_TEXT, WIDE_OPTIONS
    name, options = ('sort.hh', LONG_OPTIONS) if example == LONG else (example, RUNS.get(example, []))
    with open(os.path.join(TOP, 'examples', name), encoding='utf-8') as f:
        program = f.read()
    if example == LONG:
        program = program.replace('set i5 12\n', 'set i5 330\n').replace('set i0 12\n', 'set i0 330\n')
    return program, options


def wide_trace():
    """A trace breadth-first: a worker takes the next task, and lets it go where it forks."""
    lines = ['trace 2']
    for t in range(WIDE_FORKS):
        worker = t % 16
        lines += [f'{worker} took {t}', f'{worker} ran {t} {2 if t else 4}', f'{worker} chunk {t}', f'{worker} ran {t} 3']
    return [*lines, '0 fuel']


def trace_of(hheap, program, options):
    """The lines of the trace of a run."""
    _, written = output(hheap, 'run', '--trace', *options, text=program.encode())
    lines = written.decode().splitlines()
    return lines[lines.index('trace 2'):-1]


def image_of(hheap, program, trace, options):
    """Tasks by state; of each object its owner, kind, references and numbers; for each task its chunks, each as its units
    and the objects that lie in it; and the remembered fields."""
    status, written = output(hheap, 'image', *options, text=(program + '\n'.join(trace) + '\n').encode())
    assert status == 0, written
    rows = [line.split() for line in written.decode().splitlines()]
    states = {w[1]: w[3] for w in rows if w[0] == 'task'}
    owners = {int(w[1]): int(w[2]) for w in rows if w[0] == 'chunk'}
    objects = {int(w[1]): w for w in rows if w[0] == 'object'}
    births = {at: f'{w[2]}.{w[3]}' for at, w in objects.items()}
    shown = {}
    for at, w in objects.items():
        refs = int(w[5])
        shown[births[at]] = (owners[(at - 1) // CHUNK], w[4] == 'mut',
                             [births.get(int(x), int(x)) for x in w[7:7 + refs]], [int(x) for x in w[7 + refs:]])
    noted = {(int(w[1]), births[int(w[2])], int(w[3])) for w in rows if w[0] == 'remembered'}
    chunks = {int(w[1]): (w[2], [int(w[3]) // CHUNK, []]) for w in rows if w[0] == 'chunk'}
    for at in sorted(objects):
        chunks[(at - 1) // CHUNK][1][1].append(births[at])
    return states, shown, chunks.values(), noted


def same_chunks(told, states, wanted):
    """The chunks of each task; of one that runs an image has no objects, so that just the units count."""
    here = {t: chunks for t, chunks in told if chunks}
    for t in {*here, *(owner for owner, _ in wanted)}:
        chunks, there = here.get(t, []), [chunk for owner, chunk in wanted if owner == t]
        if states[t] == 'running':
            chunks, there = [units for units, _ in chunks], [units for units, _ in there]
        assert sorted(chunks) == sorted(there), (t, chunks, there)


def same_fields(name, told, wanted):
    owner, mutable, refs, ints, fields = told
    fields = fields + [0] * (refs + ints - len(fields))
    assert (owner, mutable, refs, ints) == (wanted[0], wanted[1], len(wanted[2]), len(wanted[3])), (name, told, wanted)
    assert [int(x) for x in fields[refs:]] == wanted[3], (name, told, wanted)
    for here, there in zip(fields, wanted[2]):
        # a reference into the heap of a running task has a bare address in an image
        assert here == there or (here != 0 and isinstance(there, int) and there != 0), (name, told, wanted)


def cut(trace, options, at):
    """A trace up to an entry, and the options with which the run ends there for want of fuel."""
    if at + 1 == len(trace):
        return trace, options
    rows = [line.split() for line in trace[1:at + 1]]
    steps = sum(int(words[3]) for words in rows if words[1] == 'ran')
    others = options[:options.index('--fuel')] if '--fuel' in options else options
    return [*trace[:at + 1], '0 fuel'], [*others, '--fuel', str(steps)]


def same_as_image(page, hheap, program, trace, options, at):
    shorter, limits = cut(trace, options, at)
    states, objects, chunks, noted = image_of(hheap, program, shorter, limits)
    page.run(f'hh.go({at})')
    told = page.run(STATE)
    rest = {'ready': 'running', 'out': 'running'}
    assert {t: rest.get(s, s) for t, s in told['tasks']} == states, (at, told['tasks'], states)
    here = dict(told['objects'])
    for name, wanted in objects.items():
        same_fields(name, here[name], wanted)
    assert {tuple(x) for x in told['noted']} == noted, (at, told['noted'], noted)
    same_chunks(told['chunks'], states, chunks)
    at_rest = {name for name, o in here.items() if states[str(o[0])] != 'running'}
    assert at_rest == set(objects), (at, at_rest ^ set(objects))


def reached(told, t):
    """What is reached within the heap of a task from its roots, and from what objects above it refer to."""
    parents, roots, objects = dict(told['parents']), dict(told['roots']), dict(told['objects'])
    above, at = set(), parents[t]
    while at is not None:
        above.add(at)
        at = parents[at]
    starts = [*roots[t]] + [v for o in objects.values() if o[0] in above for v in o[4][:o[2]] if v]
    met, todo = set(), starts
    while todo:
        name = todo.pop()
        if name not in met and objects[name][0] == t:
            met.add(name)
            todo += [v for v in objects[name][4][:objects[name][2]] if v]
    return met


def kept(entries):
    """Of each leaf collection and each marking: after which entry its objects were found, the task, and the objects."""
    forks, found = {}, []
    for i, entry in enumerate(entries):
        for made in entry.get('made', []):
            forks[made[1]] = i
        if 'take' in entry:
            found.append((i - 1, entry['take'][0], entry['take'][2]))
        if 'snap' in entry:
            found.append((forks[entry['snap'][0]], *entry['snap']))
    return found


def same_as_kept(page, entries):
    found = kept(entries)
    for at, t, names in found[::len(found) // MOST_COLLECTIONS + 1]:
        page.run(f'hh.go({at})')
        here = reached(page.run(STATE), t)
        assert here == set(names), (at, t, here ^ set(names))
    return len(found)


def walk(page, count, stride):
    """Forwards and backwards through the entries, a few at a time."""
    places, bad = sorted({*range(0, count + 1, stride), count}), []
    page.run('window.digests = []; 0')
    for way in (places, places[::-1]):
        for at in range(0, len(way), 50):
            bad += page.run(VISIT.replace('KEPT', str(7 * stride if stride > 1 else 1)).replace('PLACES', str(way[at:at + 50])))
    return bad


def leads(page, count):
    page.run('hh.go(0)')
    for key, want in (('ArrowRight', 1), ('ArrowRight', 2), ('ArrowLeft', 1), ('End', count), ('Home', 0)):
        page.key(key)
        assert page.run('hh.pos') == min(want, count), key
    for key in 'npfoot[]+-':
        page.key(key)
    page.run("document.getElementById('find').value = '(0,0)'; document.getElementById('seek').requestSubmit()")
    page.run("location.hash = '#e=3'; new Promise(done => setTimeout(done, 300))")
    assert page.run('hh.pos') == min(3, count)


def cuts(example, trace):
    """The entries after which the trace is cut."""
    ran = [i for i in range(1, len(trace)) if trace[i].split()[1] == 'ran']
    stride = max(10, len(ran) // LONG_CUTS) if example in (WIDE, LONG) else 10
    return ran[::stride] + ran[-1:]


def test(page, hheap, hhview, example, room):
    """The bytes of the page's data for each entry."""
    began = time.time()
    program, options = text_of(example)
    trace = wide_trace() if example == WIDE else trace_of(hheap, program, options)
    status, written = output(hhview, 'page', *options, '--title', example, text=(program + '\n'.join(trace) + '\n').encode())
    assert status == 0, status
    file = os.path.join(room, example.replace(' ', '_') + '.html')
    with open(file, 'wb') as f:
        f.write(written)
    page.theme('light')
    opened = time.time()
    page.open(file)
    opened = time.time() - opened
    count = page.run('hh.N')
    assert count == len(trace) - 1
    bad = walk(page, count, LONG_STRIDE if example in (WIDE, LONG) else 1)
    assert not bad, bad[:5]
    step = page.run(TIMES)
    leads(page, count)
    for at in cuts(example, trace):
        same_as_image(page, hheap, program, trace, options, at)
    start = written.index(b' id="run">') + len(b' id="run">')
    collections = same_as_kept(page, json.loads(written[start:written.index(b'</script>', start)])['entries'])
    assert not page.faults(), page.faults()
    assert all(url.startswith(('file://', 'about:')) for url in page.asked()), page.asked()
    data = written[written.index(b'"entries":'):written.index(b'\n"end":')]
    print(f'{example}: {count} entries, {len(written)} bytes, {len(data) / count:.0f} an entry; '
          f'{collections} collections; opened in {opened:.2f} s, half of the steps in {step:.0f} ms; '
          f'{time.time() - began:.1f} s in all', flush=True)
    return len(data) / count


def main():
    hheap, hhview, *examples = sys.argv[1:]
    if browser.find() is None:
        print('pages of runs: left out, since there is no chromium')
        return 0
    failed, sizes = 0, []
    page = browser.Browser()
    with tempfile.TemporaryDirectory() as room:
        for example in examples or [*RUNS, LARGE, WIDE, LONG]:
            try:
                sizes.append(test(page, hheap, hhview, example, room))
            except (AssertionError, RuntimeError) as e:
                failed += 1
                print(f'{example}: FAILED: {type(e).__name__} {str(e)[:800]}', flush=True)
    page.close()
    if sizes and sum(sizes) / len(sizes) > MOST_BYTES:
        failed += 1
        print(f'an entry takes {sum(sizes) / len(sizes):.0f} bytes, which are more than {MOST_BYTES}')
    return failed > 0


if __name__ == '__main__':
    sys.exit(main())
