"""Compares the programs with the independent decoder: compare.py [CASES] [SEED]. All edges, then that many random cases. Last: 'N passed, M failed'."""
import functools
import itertools
import random
import sys
import time
from collections import namedtuple

import decoder as d
import runner as p
import streams as s

RANDOM_CASES = 20000
SEED = 1
SHOWN = 10  # differences that are printed in full
LONG = 1000  # bytes that are printed in hex

Case = namedtuple('Case', 'program data pieces')  # pieces: None where the data stand ready


# ---------------------------------------------------------------- what the documents say


@functools.lru_cache(maxsize=2)
def entries_of(stream):
    return [d.entry_of(record) for record in d.reading(stream)]


def full_register_text(stream, accepted):
    """What `intake` prints where its register is full, with the accepted bytes that it told: how many it reads at once is left open."""
    entries = entries_of(stream)[:d.REGISTER]
    end = entries[-1].place + entries[-1].length
    if not end <= accepted <= min(len(stream), end + 8192):
        return b'the number of accepted bytes is wrong'
    passed = end - sum(entry.length for entry in entries)
    return d.entries_text(entries) + d.lines([d.totals_line(accepted, len(entries), passed, accepted - end)])


def accepted_in(output):
    words = output.splitlines()[-1].split() if output else []
    return int(words[1]) if len(words) == 8 and words[1].isdigit() else -1


def expected_of_register(program, stream, output):
    full = len(entries_of(stream)) >= d.REGISTER
    if program == 'pack':
        text = d.packed(entries_of(stream)[:d.REGISTER])
    else:
        text = full_register_text(stream, accepted_in(output)) if full else d.intake_text(stream)
    return p.Answer(1, text, (5, 0)) if full else p.Answer(0, text, None)


def expected_of_unpack(data):
    refusal = d.unpack_refusal(data)
    return p.Answer(1, b'', refusal) if refusal else p.Answer(0, d.entries_text(d.unpacked(data)), None)


def expected(case, output):
    if case.program == 'unpack':
        return expected_of_unpack(case.data)
    if case.program in ('intake', 'pack'):
        return expected_of_register(case.program, case.data, output)
    text = d.frames_text if case.program == 'frames' else d.fields_text
    return p.Answer(0, text(case.data), None)


# ---------------------------------------------------------------- the cases


def cases_of_stream(stream):
    for program in ('frames', 'intake', 'fields', 'pack'):
        yield Case(program, stream, None)
    yield Case('unpack', d.packed(entries_of(stream)[:d.REGISTER]), None)


def cut(data, sizes):
    pieces, at = [], 0
    while at < len(data):
        size = sizes()
        pieces.append(data[at:at + size])
        at += size
    return pieces


def piped(program, data, sizes):
    return Case(program, data, cut(data, sizes))


def random_sizes(rng):
    if rng.random() < 0.3:
        size = rng.choice((7, 512, 4096, 8191, 8192, 8193, 16384))
        return lambda: size
    largest = rng.choice((2, 10, 100, 1000, 9000))
    return lambda: rng.randint(1, largest)


def piped_edges(seed):
    """Edges through a pipe: short ones one byte at a time, the others cut at random; then full registers."""
    rng = random.Random(f'{seed} pipes')
    for stream in s.edge_streams(seed):
        yield piped('intake', stream, (lambda: 1) if len(stream) < 600 else random_sizes(rng))
    for stream in s.full_streams():
        yield piped('intake', stream, lambda: rng.randint(1, 9000))
    for blocks in s.whole_registers(rng):
        yield piped('unpack', blocks, lambda: rng.randint(1, 3000))


def edge_cases(seed):
    for stream in itertools.chain(s.edge_streams(seed), s.full_streams()):
        yield from cases_of_stream(stream)
    for blocks in s.edge_blocks(seed):
        yield Case('unpack', blocks, None)
    yield from piped_edges(seed)


def random_cases(seed):
    for i, stream in enumerate(s.random_streams(seed)):
        yield from cases_of_stream(stream)
        rng = random.Random(f'{seed} {i} more')
        yield Case('unpack', s.random_blocks(rng), None)
        if i % 4 == 0:
            program = rng.choice(('intake', 'intake', 'intake', 'frames', 'fields', 'pack'))
            yield piped(program, stream, (lambda: 1) if len(stream) < 300 else random_sizes(rng))


# ---------------------------------------------------------------- the comparison


def differing_lines(got, want):
    pairs = itertools.zip_longest(got.splitlines(), want.splitlines())
    for number, (a, b) in enumerate(pairs, 1):
        if a != b:
            return f'output differs first in line {number}:\n  program {a}\n  decoder {b}'
    return 'the outputs are the same' if got == want else 'the outputs differ in how their lines end'


def shown_data(data, number):
    if len(data) <= LONG:
        return data.hex()
    name = f'/tmp/compare-{number}.hex'
    with open(name, 'w') as file:
        file.write(data.hex() + '\n')
    return f'{data[:40].hex()}... ({len(data)} bytes, in {name})'


def show(case, got, want, number):
    way = f' in {len(case.pieces)} pieces' if case.pieces else ''
    print(f'DIFFERENT: {case.program} on {len(case.data)} bytes{way}: {shown_data(case.data, number)}')
    print(f'  program: status {got.status}, told {got.told}, {len(got.output)} bytes of output')
    print(f'  decoder: status {want.status}, told {want.told}, {len(want.output)} bytes of output')
    print('  ' + differing_lines(got.output, want.output))


def same(case, number):
    got = p.run_pieces(case.program, case.pieces) if case.pieces else p.run(case.program, case.data)
    want = expected(case, got.output)
    if got != want and number <= SHOWN:
        show(case, got, want, number)
    return got == want


def met_in(case):
    """What a case shows of what all cases together have to meet: verdicts of records with their places, refusals of blocks."""
    if case.program == 'unpack':
        return {('unpack', *(d.unpack_refusal(case.data) or (0, 0)))}
    if case.program == 'intake':
        return {(d.format_of(record), *d.verdict(record)) for record in d.reading(case.data)}
    return set()


FIXED_PLACES = {('DF3', 0, 0), ('DF3', 11, 4), ('DF3', 12, 10), ('DF3', 13, 11), ('DF3', 15, 40), ('DF3', 16, 12), ('DF3', 17, 46),
                ('DF7', 0, 0), ('DF7', 11, 4), ('DF7', 12, 11), ('DF7', 13, 12), ('string', 0, 0), ('string', 18, 4),
                ('sentence', 0, 0), ('sentence', 19, 64), ('sentence', 19, 506), ('unknown', 10, 0)}
CLOCK_PLACES = {('DF3', 14, 19 + i) for i in range(6)} | {('DF7', 14, 35 + i) for i in range(6)}
CORRELATION_PLACES = {('DF3', 17, 86 + 3 * 20 + i) for i in range(20)}  # 5 beams of 4 cells, behind velocities and amplitudes
REFUSED_BLOCKS = {('unpack', 28, 0)} | {('unpack', number, i) for number in (29, 30) for i in range(4)}
TO_MEET = FIXED_PLACES | CLOCK_PLACES | CORRELATION_PLACES | REFUSED_BLOCKS | {('unpack', 0, 0)}


def main(cases=RANDOM_CASES, seed=SEED):
    start, passed, failed, met = time.monotonic(), 0, 0, set()
    for case in itertools.chain(edge_cases(seed), itertools.islice(random_cases(seed), cases)):
        met |= met_in(case)
        if same(case, failed + 1):
            passed += 1
        else:
            failed += 1
    for name, number, place in sorted(TO_MEET - met):
        print(f'NEVER MET: {name}, {number} at {place}')
        failed += 1
    print(f'{cases} random cases with the seed {seed}, and all edges, in {time.monotonic() - start:.0f} seconds')
    print(f'{passed} passed, {failed} failed')
    return failed != 0


if __name__ == '__main__':
    sys.exit(main(*map(int, sys.argv[1:3])))
