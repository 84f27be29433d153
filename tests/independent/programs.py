"""Tests what the programs tell beside their answers: usage, refusals, statuses, tags, full registers, pipes. Last: 'N passed, M failed'."""
import datetime
import os
import re
import subprocess
import sys

import decoder as d
import runner as p

GUIDE_TAG_TEXT = b'2017-01-24 08:42:57.449 - This is a test tag.'
GUIDE_TAG = bytes.fromhex('a50aa0102f00428c425d13') + GUIDE_TAG_TEXT + b'\0'
PROGRAMS = ('frames', 'intake', 'fields', 'pack', 'unpack', 'tag')
READERS = PROGRAMS[:-1]
SENTENCE = d.sentence(b'A')


def run(program, data, *args, **options):
    """The finished process, with its raw standard output and error."""
    return subprocess.run([p.built(program), *args], input=data, capture_output=True, timeout=p.LIMIT, **options)


def entries_of(stream):
    return [d.entry_of(record) for record in d.reading(stream)]


# ---------------------------------------------------------------- usage and statuses


def test_programs_tell_their_usage():
    for program in PROGRAMS:
        r = run(program, b'', '--help')
        assert r.returncode == 0 and not r.stderr and r.stdout.startswith(b'usage: ' + program.encode()), program


def test_programs_refuse_arguments_that_they_do_not_know():
    for program in PROGRAMS:
        refused_with_usage(program, ['--no-such-option', 'a'])
    for program in READERS:
        for argument in ('--no-such-option', '-', '--', 'survey.ad2cp', ''):
            refused_with_usage(program, [argument])


def refused_with_usage(program, args):
    r = run(program, SENTENCE, *args)
    assert r.returncode == 1 and b'usage: ' + program.encode() in r.stderr and not r.stdout, (program, args)


def test_programs_end_with_0_and_no_words_on_an_empty_stream():
    expected = {'frames': b'bytes 0 frames 0 framed 0 passed 0\n', 'pack': b'', 'unpack': b''}
    for program in READERS:
        r = run(program, b'')
        assert (r.returncode, r.stderr) == (0, b''), program
        assert r.stdout == expected.get(program, b'accepted 0 records 0 passed 0 waiting 0\n'), program


def test_programs_fail_where_standard_input_cannot_be_read():
    directory = os.open('/', os.O_RDONLY)
    for program in READERS:
        r = subprocess.run([p.built(program)], stdin=directory, capture_output=True, timeout=p.LIMIT)
        assert r.returncode == 1 and r.stderr, program
    os.close(directory)


def test_programs_fail_where_standard_output_cannot_be_written():
    blocks = d.packed(entries_of(SENTENCE))
    for program in READERS:
        with open('/dev/full', 'wb') as full:
            r = subprocess.run([p.built(program)], input=blocks if program == 'unpack' else SENTENCE, stdout=full,
                               stderr=subprocess.PIPE, timeout=p.LIMIT)
        assert r.returncode == 1 and r.stderr, program


# ---------------------------------------------------------------- full registers


def test_intake_tells_why_a_register_is_too_small():
    assert run('intake', SENTENCE * 3967).stderr == b''
    for more in (1, 2, 500):
        r = run('intake', SENTENCE * (3967 + more))
        lines = r.stdout.splitlines()
        assert r.returncode == 1 and b'refused, 5: the register has no free place' in r.stderr, more
        assert lines[:-1] == d.entries_text(entries_of(SENTENCE * 3968)).splitlines(), more
        words = lines[-1].split()
        assert words[2:6] == [b'records', b'3968', b'passed', b'0'] and int(words[1]) == 3968 * 7 + int(words[7]), more


def test_pack_writes_the_blocks_of_a_full_register():
    for count, status in ((3967, 0), (3968, 1), (4100, 1)):
        r = run('pack', SENTENCE * count)
        assert r.returncode == status and (b'refused, 5: ' in r.stderr) == (status == 1), r.stderr
        assert r.stdout == d.packed(entries_of(SENTENCE * count)[:3968]), count


def test_fields_goes_on_when_a_register_is_full():
    for count in (63, 64, 65, 128, 129, 5000):
        stream = SENTENCE * count
        r = run('fields', stream)
        assert (r.returncode, r.stdout, r.stderr) == (0, d.fields_text(stream), b''), count


def test_frames_lists_more_than_a_register_holds():
    r = run('frames', SENTENCE * 50000)
    assert (r.returncode, r.stdout) == (0, d.frames_text(SENTENCE * 50000))


# ---------------------------------------------------------------- blocks


def test_unpack_tells_a_refusal_with_number_place_and_meaning():
    parts = [d.block([d.Entry(i, 7, 2, 0, 0, 0)] * 31, i) for i in range(3)]
    for blocks, number, place in ((b'\0', 28, 0), (parts[0] + bytes(512), 29, 1), (parts[0] + parts[1] + parts[1], 30, 2)):
        r = run('unpack', blocks)
        told = re.match(rb'refused, (\d+), place (\d+): \w+', r.stderr)
        assert r.returncode == 1 and not r.stdout and told and (int(told[1]), int(told[2])) == (number, place), r


def test_unpack_reads_no_more_than_a_register_can_have():
    with open('/dev/zero', 'rb') as endless:
        r = subprocess.run([p.built('unpack')], stdin=endless, capture_output=True, timeout=p.LIMIT)
    assert r.returncode == 1 and not r.stdout and r.stderr.startswith(b'refused, 28, place 0: '), r


def test_pack_and_unpack_in_a_pipe_print_the_entries_of_intake():
    stream = d.tag(b'a') + b'\xA5' + SENTENCE * 70 + d.binary_frame(0x15, b'')
    packing = subprocess.Popen([p.built('pack')], stdin=subprocess.PIPE, stdout=subprocess.PIPE)
    unpacking = subprocess.Popen([p.built('unpack')], stdin=packing.stdout, stdout=subprocess.PIPE)
    packing.stdout.close()
    packing.stdin.write(stream)
    packing.stdin.close()
    output, _ = unpacking.communicate(timeout=p.LIMIT)
    assert (packing.wait(), unpacking.returncode) == (0, 0)
    assert output == b''.join(run('intake', stream).stdout.splitlines(True)[:-1]) and output.count(b'\n') == 72


# ---------------------------------------------------------------- tags


def test_tag_writes_the_tag_of_the_guide():
    r = run('tag', b'', GUIDE_TAG_TEXT)
    assert (r.returncode, r.stdout, r.stderr) == (0, GUIDE_TAG, b'')
    assert d.tag(GUIDE_TAG_TEXT) == GUIDE_TAG


def test_tag_writes_a_record_that_intake_accepts():
    for text in (b'', b'a', b'pump started', b'-', b'--', b'--clock', b'--help', 'Größe 3 m'.encode(), b'$A*41\r\n', b'x' * 8180):
        r = run('tag', b'', '--', text)
        assert (r.returncode, r.stdout, r.stderr) == (0, d.tag(text), b''), text
        assert run('intake', r.stdout).stdout == d.intake_text(r.stdout), text
        assert entries_of(r.stdout)[0].verdict == 0, text


def test_tag_refuses_a_text_that_is_too_long():
    for args in (['x' * 8181], ['--clock', 'x' * 8155], ['--clock', '--', 'x' * 8155]):
        r = run('tag', b'', *args)
        assert r.returncode == 1 and not r.stdout and b'refused, 25' in r.stderr, len(args)
    for args in (['x' * 8180], ['--clock', 'x' * 8154]):
        r = run('tag', b'', *args)
        assert (r.returncode, len(r.stdout)) == (0, 8192), len(args)


def test_tag_refuses_wrong_arguments():
    for args in ([], ['a', 'b'], ['--clock'], ['--clock', 'a', 'b'], ['--'], ['--clock', '--'], ['a', '--clock']):
        refused_with_usage('tag', args)


def test_tag_refuses_a_text_that_is_not_utf_8():
    for args in ([b'\xA5'], ['--clock', b'a\xFF'], ['--', b'\xC3']):
        r = run('tag', b'', *args)
        assert r.returncode == 1 and not r.stdout and r.stderr, args


def test_tag_puts_the_clock_in_front():
    utc = datetime.timezone.utc
    before = datetime.datetime.now(utc)
    r = run('tag', b'', '--clock', 'a')
    after = datetime.datetime.now(utc)
    assert r.returncode == 0 and r.stdout[10:11] == b'\x13' and r.stdout.endswith(b' - a\0')
    stamp = datetime.datetime.strptime(r.stdout[11:34].decode(), '%Y-%m-%d %H:%M:%S.%f').replace(tzinfo=utc)
    slack = datetime.timedelta(milliseconds=1)
    assert before - slack <= stamp <= after + slack
    assert r.stdout == d.tag(r.stdout[11:-1])


def test_the_clock_of_a_tag_does_not_follow_the_time_zone():
    def date_and_hour(zone):
        return run('tag', b'', '--clock', 'a', env={'TZ': zone}).stdout[11:24]

    here = date_and_hour('UTC0')
    there = date_and_hour('AAA-9')
    assert there in (here, date_and_hour('UTC0'))


# ---------------------------------------------------------------- pipes


def test_intake_takes_one_byte_at_a_time():
    stream = b'\xA5' + d.tag(b'a') + b'$' + SENTENCE + d.binary_frame(0x26, b'\xA5' * 59)[:-1]
    answer = p.run_pieces('intake', [bytes((b,)) for b in stream])
    assert answer == p.Answer(0, d.intake_text(stream), None), answer


def test_intake_takes_a_stream_that_is_far_longer_than_its_buffer():
    stream = (d.binary_frame(0x77, b'\xA5' * 8182) + bytes(9000) + d.binary_frame(0x77, b'\x0A' * 8182)[:-1]) * 200
    answer = p.run('intake', stream)
    assert answer == p.Answer(0, d.intake_text(stream), None)


def main():
    passed = failed = 0
    for name, test in sorted(globals().items()):
        if not name.startswith('test_'):
            continue
        try:
            test()
            passed += 1
            print('ok', name)
        except Exception as e:
            failed += 1
            print('FAILED', name, repr(e)[:400])
    print(f'{passed} passed, {failed} failed')
    sys.exit(failed != 0)


if __name__ == '__main__':
    main()
