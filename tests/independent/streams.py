"""Makes byte streams for the comparison: valid surveys, damaged ones, frames inside frames, and every edge that the documents name."""
import itertools
import random

import decoder as d

DF3_SERIES = (0x15, 0x16, 0x18)
INTERESTING = (0x00, 0x0A, 0x0D, 0x10, 0x15, 0x24, 0x26, 0x2A, 0x2C, 0x5C, 0x7E, 0x7F, 0xA0, 0xA5, 0xFF)
PRINTABLE = bytes(b for b in range(0x20, 0x7F) if b not in b'$*')
YEARS = (0, 1, 4, 70, 96, 99, 100, 101, 104, 117, 124, 126, 200, 204, 255)


# ---------------------------------------------------------------- parts of records


def little(value, width):
    return (value % 256 ** width).to_bytes(width, 'little')


def some_bytes(rng, count):
    if rng.random() < 0.3:
        return bytes(rng.choices(INTERESTING, k=count))
    return rng.randbytes(count)


def valid_clock(rng):
    year, month = rng.choice(YEARS), rng.randrange(12)
    last = d.days_of_month(1900 + year, month + 1)
    day = rng.choice((1, last, rng.randint(1, last)))
    return clock(year, month, day, rng.choice((0, 23, rng.randrange(24))), rng.choice((0, 59, rng.randrange(60))),
                 rng.choice((0, 59, rng.randrange(60))), rng.choice((0, 9999, rng.randrange(10000))))


def clock(year=117, month=0, day=24, hour=8, minute=42, second=57, hundred_us=4490):
    return bytes((year, month, day, hour, minute, second)) + little(hundred_us, 2)


def put(data, position, new):
    """The data with the new bytes written over those at the position."""
    return data[:position] + new + data[position + len(new):]


def df3(rng, beams=2, cells=3, coordinates=0, arrays=0b111, offset=76, scaling=None, tail=0, moment=None, missing=0):
    """The data of an accepted DF3 record, unless an argument makes it a wrong one; `missing` bytes are left out at the end."""
    front = bytes((3, offset)) + little(arrays << 5 | rng.randrange(256) << 8 | rng.randrange(32), 2) + some_bytes(rng, 4)
    front += (moment or valid_clock(rng)) + some_bytes(rng, 14) + little(beams << 12 | coordinates << 10 | cells, 2)
    front += some_bytes(rng, 4) + bytes((rng.randrange(101),)) + some_bytes(rng, 21)
    front += little(rng.choice((-3, -3, -4, 0, -1, 2, rng.randint(-128, 127))) if scaling is None else scaling, 1)
    front += some_bytes(rng, 17 + max(0, offset - 76))
    items = beams * cells
    velocities = some_bytes(rng, 2 * items) if arrays & 1 else b''
    amplitudes = some_bytes(rng, items) if arrays & 2 else b''
    correlations = bytes(rng.choices(range(101), k=items)) if arrays & 4 else b''
    data = front + velocities + amplitudes + correlations + some_bytes(rng, tail)
    return data[:len(data) - missing]


def df7(rng, offset=60, tail=0, instrument=0x30, moment=None):
    front = some_bytes(rng, 1) + bytes((instrument,)) + little(offset, 2) + some_bytes(rng, 20)
    return front + (moment or valid_clock(rng)) + some_bytes(rng, 28 + max(0, offset - 60) + tail)


def payload(rng, length):
    commas = rng.random()
    return bytes(0x2C if rng.random() < commas * 0.4 else rng.choice(PRINTABLE) for _ in range(length))


# ---------------------------------------------------------------- one record


def df3_record(rng):
    data = df3(rng, beams=rng.randint(1, 5), cells=rng.choice((1, 2, 3, 8, rng.randint(1, 40))), coordinates=rng.randrange(4),
               arrays=rng.randrange(8), offset=rng.choice((76, 76, 77, 80, rng.randint(76, 255))), tail=rng.choice((0, 0, 1, 9)))
    return d.binary_frame(rng.choice(DF3_SERIES), data)


def df7_record(rng):
    data = df7(rng, offset=rng.choice((60, 60, 61, 300)), tail=rng.choice((0, 0, 1, 50)), instrument=rng.choice((0x30, 0x40)))
    return d.binary_frame(0x26, data)


def string_record(rng):
    text = bytes(rng.choices(PRINTABLE, k=rng.randrange(30))) if rng.random() < 0.5 else some_bytes(rng, rng.randrange(30))
    return d.binary_frame(0xA0, b'\x13' + text + rng.choice((b'\0', b'', b'\0\0')))


def sentence_record(rng):
    return d.sentence(payload(rng, rng.choice((1, 2, 20, 80, rng.randint(1, 506)))))


def unknown_record(rng):
    return d.binary_frame(rng.choice((0, 0x17, 0x1B, 0x23, 0x24, 0xA1, 0xA5, 0xFF)), some_bytes(rng, rng.choice((0, 1, 2, 60, 200))))


def wrong_df3_record(rng):
    """A right frame whose data fail one of the questions, or several."""
    data = df3(rng, beams=rng.randint(1, 5), cells=rng.randint(1, 6), arrays=rng.randrange(8), offset=rng.choice((76, 76, 90)))
    for _ in range(rng.choice((1, 1, 1, 2, 3))):
        data = spoiled_df3(rng, data)
    return d.binary_frame(rng.choice(DF3_SERIES), data)


def spoiled_df3(rng, data):
    if len(data) < 76:
        return data
    change = rng.randrange(8)
    if change == 0:
        return data[:rng.choice((0, 1, 75, rng.randrange(76)))]
    if change == 1:
        return put(data, 0, bytes((rng.choice((0, 1, 2, 4, 255)),)))
    if change == 2:
        return put(data, 1, bytes((rng.choice((0, 75, 255, min(255, len(data)), min(255, len(data) + 1))),)))
    if change == 3:
        return put(data, 8 + rng.randint(1, 7), bytes((rng.choice((0, 12, 24, 32, 60, 255)),)))
    if change == 4:
        return put(data, 30, little(rng.choice((0, 6, 9, 15)) << 12 | rng.randrange(4096), 2))
    if change == 5:
        return put(data, 30, little(rng.randint(1, 5) << 12 | rng.choice((0, 1, 2, 1023)), 2))
    if change == 6:
        return put(data, 36, bytes((rng.choice((100, 101, 255)),)))
    return put(data, rng.randrange(76, len(data) + 1), bytes((rng.choice((100, 101, 255)),)))


def wrong_df7_record(rng):
    data = df7(rng, offset=rng.choice((60, 62)), tail=rng.randrange(4))
    change = rng.randrange(4)
    if change == 0:
        data = data[:rng.choice((0, 1, 59, rng.randrange(60)))]
    elif change == 1:
        data = put(data, 1, bytes((rng.choice((0, 0x10, 0x2F, 0x31, 0x41, 0xFF)),)))
    elif change == 2:
        data = put(data, 2, little(rng.choice((0, 59, len(data) + 1, 65535)), 2))
    else:
        data = put(data, 24 + rng.randint(1, 7), bytes((rng.choice((0, 12, 24, 32, 60, 255)),)))
    return d.binary_frame(0x26, data)


def wrong_other_record(rng):
    if rng.random() < 0.3:
        return d.binary_frame(0xA0, b'')
    return d.sentence(payload(rng, rng.randrange(40)) + b',' * rng.randint(60, 70) + payload(rng, rng.randrange(40)))


RECORDS = (df3_record, df3_record, df7_record, string_record, sentence_record, unknown_record)
WRONG_RECORDS = (wrong_df3_record, wrong_df3_record, wrong_df3_record, wrong_df7_record, wrong_other_record)


def record(rng):
    return rng.choice(RECORDS)(rng)


# ---------------------------------------------------------------- frames that are none


def frame_with(series, data, header_size=10, family=0x10, size=None, data_sum=0, header_sum=0):
    """A frame with wrong fields; the sums are right, then changed by the numbers given."""
    front = bytes((0xA5, header_size, series, family)) + little(len(data) if size is None else size, 2)
    front += little(d.checksum(data) + data_sum, 2)
    return front + little(d.checksum(front) + header_sum, 2) + data


def wrong_frame(rng):
    data = rng.choice((b'', some_bytes(rng, rng.randrange(40)), record(rng)))
    wrong = rng.choice((dict(header_size=rng.choice((0, 9, 11, 12, 255))), dict(family=rng.choice((0, 0x0F, 0x11, 0x30, 0x40, 0xFF))),
                        dict(size=rng.choice((8183, 8192, 65535))), dict(data_sum=rng.choice((1, 255, 256, 0x8000))),
                        dict(header_sum=rng.choice((1, 255, 256, 0x8000)))))
    return frame_with(rng.choice((0x15, 0x26, 0xA0, 0x33)), data, **wrong)


def wrong_sentence(rng):
    right = d.sentence(payload(rng, rng.randint(1, 60)))
    change = rng.randrange(7)
    if change == 0:
        return right[:-4] + right[-4:-2].lower() + right[-2:]
    if change == 1:
        return right[:-2] + b'\n\r'
    if change == 2:
        return right[:-2]
    if change == 3:
        return b'$' + right
    if change == 4:
        return put(right, rng.randrange(1, len(right) - 5 + 1), bytes((rng.choice((0x1F, 0x7F, 0x80, 0x24, 0x2A)),)))
    if change == 5:
        return put(right, len(right) - 4, b'%02X' % rng.randrange(256))
    return d.sentence(b'')


def noise(rng):
    return some_bytes(rng, rng.choice((1, 2, 5, 30)))


# ---------------------------------------------------------------- whole streams


def valid_survey(rng):
    return b''.join(record(rng) for _ in range(rng.randint(1, 6)))


def wrong_survey(rng):
    makers = RECORDS + 3 * WRONG_RECORDS
    return b''.join(rng.choice(makers)(rng) for _ in range(rng.randint(1, 8)))


def mixed_survey(rng):
    makers = RECORDS + WRONG_RECORDS + (wrong_frame, wrong_sentence, noise)
    return b''.join(rng.choice(makers)(rng) for _ in range(rng.randint(1, 8)))


def damaged_survey(rng):
    stream = bytearray(valid_survey(rng))
    for _ in range(rng.randint(1, 5)):
        at = rng.randrange(len(stream) + 1)
        change = rng.randrange(5)
        if change == 0 and at < len(stream):
            stream[at] ^= 1 << rng.randrange(8)
        elif change == 1:
            del stream[at:at + rng.choice((1, 1, 2, 20))]
        elif change == 2:
            stream[at:at] = noise(rng)
        elif change == 3 and at < len(stream):
            stream[at] = rng.choice(INTERESTING)
        elif rng.random() < 0.4:
            del stream[at:]
    return bytes(stream)


def nested(rng, depth=2):
    """A frame whose data hold other frames and sentences; it may be damaged, so that the inner ones are found."""
    inner = b''.join(nested(rng, depth - 1) if depth and rng.random() < 0.4 else record(rng) for _ in range(rng.randint(1, 3)))
    inner = (noise(rng) if rng.random() < 0.3 else b'') + inner[:7000] + (noise(rng) if rng.random() < 0.3 else b'')
    series = rng.choice((0x15, 0x26, 0xA0, 0x40))
    choice = rng.randrange(7)
    if choice < 2:
        return d.binary_frame(series, inner)
    if choice == 2:
        return d.binary_frame(0x16, df3(rng, tail=0) + inner)
    if choice == 3:
        return frame_with(series, inner, size=rng.choice((len(inner) + 1, len(inner) + 9, max(0, len(inner) - 1), 8182)))
    if choice == 4:
        return frame_with(series, inner, data_sum=1)
    if choice == 5:
        return frame_with(series, inner, header_sum=1)
    return b'$' + payload(rng, rng.randint(1, 30)) + inner


def nested_survey(rng):
    return b''.join(rng.choice((nested, nested, record, noise))(rng) for _ in range(rng.randint(1, 3)))


def noise_survey(rng):
    return b''.join(noise(rng) for _ in range(rng.randint(0, 40)))


def long_survey(rng):
    """Some ten thousand bytes, with frames as long as they may be, whole, damaged or cut off, so that many bytes wait for a verdict."""
    def long_frame():
        inner = (record(rng) + noise(rng)) * 300
        size = rng.choice((8182, 8181, 8000, 4096, rng.randrange(8182)))
        return frame_with(rng.choice((0x77, 0xA0, 0x26)), inner[:size], data_sum=rng.choice((0, 0, 1)))[:rng.choice((8192, 8192, 8191, 5000))]

    makers = (long_frame, long_frame, lambda: valid_survey(rng), lambda: bytes(rng.randrange(9000)), lambda: b'$' + b'A' * rng.randrange(600))
    return b''.join(rng.choice(makers)() for _ in range(rng.randint(2, 8)))


SURVEYS = (valid_survey, wrong_survey, mixed_survey, mixed_survey, damaged_survey, damaged_survey, nested_survey, nested_survey, noise_survey)
LONG_EVERY = 25  # one stream in so many is a long one


def random_streams(seed):
    """Streams without end, always the same for a seed."""
    for i in itertools.count():
        survey = long_survey if i % LONG_EVERY == 0 else SURVEYS[i % len(SURVEYS)]
        yield survey(random.Random(f'{seed} {i}'))


# ---------------------------------------------------------------- edges


def edges_of_frames(rng):
    for series in (0x15, 0x26, 0xA0, 0x77):
        for size in (0, 1, 8181, 8182, 8183):
            yield d.binary_frame(series, some_bytes(rng, size))
    tag = d.tag(b'inside')
    yield b''.join(frame_with(0xA0, tag, header_size=n) for n in range(256))
    yield b''.join(frame_with(0xA0, tag, family=n) for n in range(256))
    yield b''.join(frame_with(0xA0, tag, data_sum=1 << k) + frame_with(0xA0, tag, header_sum=1 << k) for k in range(16))
    yield b''.join(frame_with(n, b'') for n in range(256))
    yield b''.join(frame_with(n, df3(rng)) for n in range(256))
    for size in (8182, 8183, 8184, 65535):
        yield frame_with(0xA0, tag + bytes(8182), size=size) + tag
        yield frame_with(0xA0, (tag * 400)[:size]) + tag
        yield frame_with(0xA0, tag * 3, size=size) + tag
    yield d.binary_frame(0x77, b'\xA5' * 8182) + frame_with(0x77, b'\xA5\x0A' * 4091, data_sum=1)


def edges_of_sentences(rng):
    for length in (0, 1, 2, 505, 506, 507, 508, 600):
        yield d.sentence(payload(rng, length)) + d.tag(b'behind')
        yield b'$' + b'A' * length
        yield b'$' + b'A' * length + b'*'
        yield b'$' + b'A' * length + d.sentence(b'B')
    yield b''.join(d.sentence(b',' * n) for n in range(1, 70))
    yield d.sentence(b'A' * 442 + b',' * 64)
    yield d.sentence(b'A' * 443 + b',' * 63)
    for commas in (62, 63, 64, 65):
        yield d.sentence(b'P' + b',ab' * commas)
        yield d.sentence(payload(rng, 9).replace(b',', b'.') + b',' * commas + payload(rng, 300))
    yield b''.join(d.sentence(bytes((n,))) + b'$' + bytes((n,)) + b'*%02X\r\n' % n for n in range(256))
    yield b''.join(b'$A*' + bytes((n,)) + b'1\r\n' + b'$A*4' + bytes((n,)) + b'\r\n' for n in range(256))
    yield b''.join(b'$A*41' + bytes((n,)) + b'\n' + b'$A*41\r' + bytes((n,)) for n in range(256))
    yield b'$o*6f\r\n$o*6F\r\n$$o*6F\r\n$*00\r\n$A$o*6F\r\n$A*41*41\r\n$o*6F\r\r\n'


def edges_of_endings(rng):
    """Streams that end in the middle of a frame, and with the first byte of one."""
    yield b''
    for last in (b'\xA5', b'$', b'\xA5\x0A', b'\0', b'*', b'$A'):
        yield last
        yield d.tag(b'a') + last
        yield d.sentence(b'a') + last
    for whole in (d.binary_frame(0xA0, b'\x13ab$A*41\r\n'), d.sentence(b'A,$'[:2]), d.binary_frame(0x33, d.tag(b'x'))):
        for end in range(1, len(whole)):
            yield whole[:end]
    for whole in (d.binary_frame(0x15, df3(rng)), d.binary_frame(0x26, df7(rng)), d.binary_frame(0x99, bytes(8182))):
        yield whole[:-1]
        yield whole[:-1] + d.tag(b'behind')
        yield whole[:-1] + b'\0' * 8200 + d.tag(b'behind')


def edges_of_df3(rng):
    def frames(datas):
        return b''.join(d.binary_frame(0x15 + i % 2, data) for i, data in enumerate(datas))

    yield frames(df3(rng)[:size] for size in range(0, 90))
    yield frames(put(df3(rng), 0, bytes((n,))) for n in range(256))
    yield frames(put(df3(rng, arrays=0, tail=tail), 1, bytes((n,))) for tail in (0, 1, 24) for n in (0, 75, 76, 77, 99, 100, 101, 255))
    yield frames(df3(rng, arrays=0, offset=n) for n in (76, 77, 254, 255))
    for coordinates in range(4):
        yield frames(df3(rng, beams, 2, coordinates, arrays, tail=tail) for beams in range(1, 6) for arrays in range(8) for tail in (0, 1))
    yield frames(df3(rng, beams, 3, rng.randrange(4), arrays, missing=m) for beams in (1, 5) for arrays in range(1, 8) for m in (0, 1, 2))
    yield frames(df3(rng, beams, 1, rng.randrange(4), arrays, tail=3) for beams in range(16) for arrays in (0, 7))
    yield frames(df3(rng, beams, cells, arrays=0, tail=30) for beams in range(16) for cells in (0, 1, 1023))
    for beams, arrays in ((1, 7), (2, 7), (5, 4), (5, 2), (3, 1), (5, 0)):
        data = df3(rng, beams, 1023, arrays=arrays)
        yield frames((data[:8182], data[:-1]))
    yield frames(df3(rng, scaling=n) for n in range(-128, 128))
    yield frames(put(df3(rng), position, b'\0' * 4 + b'\xFF' * 4) for position in range(16, 70))


def edges_of_correlations(rng):
    for offset, beams, cells, arrays in ((76, 5, 4, 7), (90, 2, 7, 4), (76, 1, 1, 5), (255, 3, 3, 6)):
        data = df3(rng, beams, cells, arrays=arrays, offset=offset, tail=2)
        first = len(data) - 2 - beams * cells
        places = [36, *range(first - 1, len(data))]
        for value in (100, 101, 255):
            yield b''.join(d.binary_frame(0x18, put(data, place, bytes((value,)))) for place in places)
        yield d.binary_frame(0x18, put(put(data, len(data) - 3, b'\x65'), first, b'\x65'))
        yield d.binary_frame(0x18, put(put(data, 36, b'\x65'), first, b'\x65'))


def moments():
    for year in (0, 4, 70, 99, 100, 101, 104, 200, 255):
        for month in range(14):
            last = d.days_of_month(1900 + year, month % 12 + 1)
            for day in (0, 1, last, last + 1):
                yield clock(year, month, day)
    for year in range(256):
        yield clock(year, 1, 29)
    for hour in (0, 23, 24, 255):
        yield clock(hour=hour)
    for sixtieth in (0, 59, 60, 255):
        yield clock(minute=sixtieth)
        yield clock(second=sixtieth)
    for hundred_us in (0, 1, 99, 9999, 10000, 65535):
        yield clock(hundred_us=hundred_us)
    yield clock(month=12, day=0, hour=24, minute=60, second=60, hundred_us=10000)
    yield clock(day=32, hour=24, minute=60, second=60, hundred_us=10000)
    yield clock(hour=24, minute=60, second=60, hundred_us=10000)
    yield clock(minute=60, second=60, hundred_us=10000)
    yield clock(second=60, hundred_us=10000)


def edges_of_clocks(rng):
    yield b''.join(d.binary_frame(0x15, df3(rng, 1, 1, arrays=0, moment=moment)) for moment in moments())
    yield b''.join(d.binary_frame(0x26, df7(rng, moment=moment)) for moment in moments())


def edges_of_df7(rng):
    yield b''.join(d.binary_frame(0x26, df7(rng)[:size]) for size in range(0, 64))
    yield b''.join(d.binary_frame(0x26, df7(rng, instrument=n)) for n in range(256))
    offsets = (0, 59, 60, 61, 62, 63, 64, 255, 256, 60 + 256, 65535)
    yield b''.join(d.binary_frame(0x26, put(df7(rng, tail=3), 2, little(n, 2))) for n in offsets)
    yield d.binary_frame(0x26, df7(rng, offset=8182)) + d.binary_frame(0x26, put(df7(rng, offset=8182), 2, little(8183, 2)))


def edges_of_strings(rng):
    texts = [b'', b'\0', b'a', b'a\0', b'\0\0', b'\x13\0', b'\x13a\0', b'\x13\0a', b'\x13\0\0', b'\x13' + bytes(range(256))]
    yield b''.join(d.binary_frame(0xA0, text) for text in texts)
    yield d.binary_frame(0xA0, b'\x13' + bytes(range(256)) * 31)
    yield d.tag(b'x' * 8180)


EDGES = (edges_of_frames, edges_of_sentences, edges_of_endings, edges_of_df3, edges_of_correlations, edges_of_clocks, edges_of_df7,
         edges_of_strings)


def edge_streams(seed):
    for edges in EDGES:
        yield from edges(random.Random(f'{seed} {edges.__name__}'))


def full_streams():
    """Streams of as many records as a register holds, and some more or fewer."""
    rng = random.Random('full')
    mixed = [rng.choice((string_record, sentence_record, noise, unknown_record))(rng)[:300] for _ in range(200)]
    for count in (3967, 3968, 3969, 4500):
        yield d.sentence(b'A') * count
        yield b'\0$' + (d.tag(b'') + b'$\xA5') * count
    yield d.sentence(b'A') * 3968 + b'\xA5'
    yield d.sentence(b'A') * 3967 + d.tag(b'a' * 8180) + bytes(20000)
    yield d.sentence(b'A') * 3968 + d.tag(b'a' * 8180) + bytes(20000)
    yield b''.join(mixed) * 60


# ---------------------------------------------------------------- registers as blocks, right and damaged


def random_entry(rng):
    return d.Entry(*(rng.choice((0, 1, 256 ** width - 1, rng.randrange(256 ** width))) for width in d.ENTRY_WIDTHS))


def random_register(rng, count):
    return [random_entry(rng) for _ in range(count)]


def blocks_of(data):
    return [data[i:i + 512] for i in range(0, len(data), 512)]


def changed(block, place, new):
    """The block with other bytes at a place, and the checksum made right for them."""
    return d.sealed(put(block, place, new)[:510])


def whole_registers(rng):
    for count in (0, 1, 2, 30, 31, 32, 61, 62, 63, 1000, 3936, 3937, 3967, 3968):
        yield d.packed(random_register(rng, count))


def flipped_bytes(rng):
    """Each byte of two blocks with a bit flipped, with the checksum as it was, and with the right one."""
    whole = d.packed(random_register(rng, 40))
    for at in range(len(whole)):
        first, index, place = at // 512 * 512, at // 512, at % 512
        flip = bytes((whole[at] ^ 1 << rng.randrange(8),))
        yield put(whole, at, flip)
        if place < 510:
            yield put(whole, first, changed(blocks_of(whole)[index], place, flip))


def wrong_lengths(rng):
    whole = d.packed(random_register(rng, 3968))
    for length in (1, 2, 511, 513, 1023, 1025, 65535):
        yield whole[:length]
    for more in (b'\0', bytes(511), bytes(512), whole[:512], whole[-512:], whole, bytes(512 * 65536 - 65536)):
        yield whole + more
    yield whole[:-512] + bytes(512)


def wrong_orders(rng):
    parts = blocks_of(d.packed(random_register(rng, 3 * 31 + 5)))
    for i in range(4):
        yield b''.join(parts[:i] + parts[i + 1:])
        for j in range(4):
            yield b''.join(parts[:j] + [parts[i]] + parts[j:])
            yield b''.join(parts[:j] + [parts[i]] + parts[j + 1:])
            swapped = list(parts)
            swapped[i], swapped[j] = parts[j], parts[i]
            yield b''.join(swapped)
    yield b''.join(parts) * 2
    yield b''.join(reversed(parts))
    yield b''.join(parts + [d.block([], 4)])
    yield d.block([], 0)


def wrong_numbers(rng):
    """Counts and numbers of blocks of all kinds, with right checksums, in the first, a middle and the last block."""
    parts = blocks_of(d.packed(random_register(rng, 3 * 31 + 5)))
    for i in (0, 1, 3):
        for count in (*range(0, 34), 255, 256, 256 + 31, 256 + 5, 32767, 65535):
            yield b''.join(parts[:i] + [changed(parts[i], 496, little(count, 2))] + parts[i + 1:])
        for index in (0, 1, 2, 3, 4, 256 + i, 65536 + i, 2 ** 24 + i, 2 ** 32 - 1):
            yield b''.join(parts[:i] + [changed(parts[i], 498, little(index, 4))] + parts[i + 1:])
        for place in (*range(502, 510), 79, 80, 495):
            yield b''.join(parts[:i] + [changed(parts[i], place, bytes((rng.randint(1, 255),)))] + parts[i + 1:])
    for wrong_sum in range(4):
        for wrong_count in range(4):
            some = list(parts)
            some[wrong_count] = changed(some[wrong_count], 496, little(6 if wrong_count == 3 else 30, 2))
            some[wrong_sum] = put(some[wrong_sum], 510, little(d.word(some[wrong_sum], 510) + 1, 2))
            yield b''.join(some)


def swapped_words(rng):
    """Blocks with two 16-bit words swapped, which leaves the checksum right."""
    whole = d.packed(random_register(rng, 35))
    for _ in range(60):
        first = rng.randrange(2) * 512
        i, j = (first + 2 * rng.choice((rng.randrange(255), rng.randrange(240, 255))) for _ in range(2))
        yield put(put(whole, i, whole[j:j + 2]), j, whole[i:i + 2])


BLOCK_EDGES = (whole_registers, flipped_bytes, wrong_lengths, wrong_orders, wrong_numbers, swapped_words)


def edge_blocks(seed):
    for edges in BLOCK_EDGES:
        yield from edges(random.Random(f'{seed} {edges.__name__}'))


def random_blocks(rng):
    """The blocks of a small register with some damage of any kind."""
    parts = blocks_of(d.packed(random_register(rng, rng.randint(1, 130))))
    for _ in range(rng.randint(0, 2)):
        i, change = rng.randrange(len(parts)), rng.randrange(5)
        if change == 0:
            parts[i] = put(parts[i], rng.randrange(512), some_bytes(rng, 1))
        elif change == 1:
            parts[i] = changed(parts[i], rng.randrange(510), some_bytes(rng, 1))
        elif change == 2:
            parts[i] = changed(parts[i], 496, little(rng.randrange(34), 2))
        elif change == 3:
            parts.insert(rng.randrange(len(parts) + 1), parts[i])
        elif len(parts) > 1:
            del parts[i]
    return b''.join(parts)[:None if rng.random() < 0.95 else rng.randrange(512 * len(parts))]
