"""Runs the programs on many streams and compares them with the independent decoder. Prints a line for each test, then 'N passed, M failed'."""
import pathlib
import random
import subprocess
import sys

sys.path.insert(0, str(pathlib.Path(__file__).parent))
import decoder as d
import printer

ROOT = pathlib.Path(__file__).resolve().parent.parent


def built(program):
    return ROOT / 'crates' / program / 'out' / program


def run(program, data, *args):
    return subprocess.run([built(program), *args], input=data, capture_output=True, timeout=60)


def frames_of(b):
    out, inside = [], 0
    for p, r, kind in d.records(b):
        out.append(f'{p} {len(r)} {kind} {d.series(r, kind)}')
        inside += len(r)
    out.append(f'bytes {len(b)} frames {len(out)} framed {inside} passed {len(b) - inside}')
    return ('\n'.join(out) + '\n').encode()


def register_of(b, most=3968):
    """What `intake` prints of a stream, and whether the register was too small for it."""
    out, inside, end = [], 0, len(b)
    for p, r, kind in d.records(b):
        if len(out) == most:
            return None
        number, place = d.verdict(r, kind)
        out.append(f'{p} {len(r)} {kind} {d.series(r, kind)} {number} {place}')
        inside += len(r)
    out.append(f'accepted {len(b)} records {len(out)} passed {len(b) - inside} waiting 0')
    return ('\n'.join(out) + '\n').encode()


def streams(count):
    yield b''
    yield b'\0' + d.TAG
    yield d.TAG[:-1]
    yield d.PNORC1
    for seed in range(count):
        yield d.random_stream(random.Random(seed))


def test_frames_lists_what_the_decoder_finds():
    for b in streams(200):
        r = run('frames', b)
        assert (r.returncode, r.stdout) == (0, frames_of(b)), b.hex()


def test_intake_registers_what_the_decoder_finds():
    for b in streams(200):
        r = run('intake', b)
        assert (r.returncode, r.stdout) == (0, register_of(b)), b.hex()


def test_intake_registers_the_same_of_a_pipe_written_in_pieces():
    rng = random.Random(7)
    for b in streams(12):
        p = subprocess.Popen([built('intake')], stdin=subprocess.PIPE, stdout=subprocess.PIPE)
        i = 0
        while i < len(b):
            n = rng.choice([1, 2, 3, 10, 57, 500, 5000])
            p.stdin.write(b[i:i + n])
            p.stdin.flush()
            i += n
        out, _ = p.communicate(timeout=60)
        assert (p.returncode, out) == (0, register_of(b)), b.hex()


def test_intake_refuses_a_stream_that_its_register_cannot_hold():
    some = d.line(b'A') * 3967
    r = run('intake', some)
    assert (r.returncode, r.stdout) == (0, register_of(some))
    for more in [1, 2, 500]:
        b = d.line(b'A') * (3967 + more)
        r = run('intake', b)
        lines = r.stdout.splitlines()
        assert r.returncode == 1 and b'refused, 5: the register has no free place' in r.stderr
        assert lines[:-1] == register_of(b, 10000).splitlines()[:3968]
        accepted, waiting = (int(lines[-1].split()[k]) for k in (1, 7))
        assert lines[-1].split()[3] == b'3968' and accepted == 3968 * 7 + waiting


def test_fields_prints_what_the_printer_finds():
    for b in streams(200):
        r = run('fields', b)
        assert (r.returncode, r.stdout) == (0, printer.printed(b)), b.hex()


def test_fields_goes_on_when_a_register_is_full():
    for count in [63, 64, 65, 128, 5000]:
        b = d.PNORC1 * count
        r = run('fields', b)
        assert (r.returncode, r.stdout) == (0, printer.printed(b)), count


def test_random_streams_meet_every_verdict():
    seen = {d.verdict(r, kind)[0] for b in streams(200) for _, r, kind in d.records(b)}
    assert seen == {0, 10, 11, 12, 13, 14, 15, 16, 17, 18, 19}, seen


def test_programs_tell_their_usage():
    for program in ['frames', 'intake', 'fields']:
        r = run(program, b'', '--help')
        assert r.returncode == 0 and not r.stderr and r.stdout.startswith(b'usage: ' + program.encode())
        r = run(program, b'', '--no-such-option')
        assert r.returncode == 1 and r.stderr and not r.stdout


def main():
    passed = failed = 0
    for name, test in sorted(globals().items()):
        if not name.startswith('test_'):
            continue
        try:
            test()
            passed += 1
            print('ok', name)
        except Exception as e:
            failed += 1
            print('FAILED', name, repr(e)[:400])
    print(f'{passed} passed, {failed} failed')
    sys.exit(failed != 0)


main()
