"""An independent decoder, written from docs/ alone: frames, readings, verdicts, the lines of the programs, blocks and tags."""
import functools
from collections import namedtuple

# ---------------------------------------------------------------- checksum and framings (docs/FRAMINGS.md)

SYNC, HEADER_SIZE, FAMILY = 0xA5, 10, 0x10
MOST_DATA = 8182
MOST_PAYLOAD = 506
NO_FRAME, SHORT = 'no frame', 'short'
HEX_DIGITS = b'0123456789ABCDEF'


def checksum(data):
    """S: 0xB58C, the little-endian words, and 256 times the last byte of an odd number of bytes."""
    total = 0xB58C + sum(data[0:len(data) // 2 * 2:2]) + 256 * sum(data[1::2])
    if len(data) % 2:
        total += 256 * data[-1]
    return total & 0xFFFF


def word(data, at):
    return data[at] | data[at + 1] << 8


def number(data, signed=False):
    return int.from_bytes(data, 'little', signed=signed)


def binary_frame(series, data):
    """The header of the series and the data, and the data; more data than a frame may have are not refused."""
    front = bytes([SYNC, HEADER_SIZE, series, FAMILY]) + len(data).to_bytes(2, 'little') + checksum(data).to_bytes(2, 'little')
    return front + checksum(front).to_bytes(2, 'little') + data


def binary_verdict(stream, at):
    """NO_FRAME, SHORT or the length of the frame."""
    here = len(stream) - at
    if here == 0:
        return SHORT
    if stream[at] != SYNC:
        return NO_FRAME
    if here == 1:
        return SHORT
    if stream[at + 1] != HEADER_SIZE:
        return NO_FRAME
    if here < 10:
        return SHORT
    size = word(stream, at + 4)
    if stream[at + 3] != FAMILY or checksum(stream[at:at + 8]) != word(stream, at + 8) or size > MOST_DATA:
        return NO_FRAME
    if here < 10 + size:
        return SHORT
    if checksum(stream[at + 10:at + 10 + size]) != word(stream, at + 6):
        return NO_FRAME
    return 10 + size


def is_payload(byte):
    return 0x20 <= byte <= 0x7E and byte not in b'$*'


def exclusive_or(payload):
    result = 0
    for byte in payload:
        result ^= byte
    return result


def sentence(payload):
    return b'$' + payload + b'*%02X\r\n' % exclusive_or(payload)


def sentence_verdict(stream, at):
    """NO_FRAME, SHORT or the length of the frame."""
    here = len(stream) - at
    if here == 0:
        return SHORT
    if stream[at] != 0x24:
        return NO_FRAME
    k = 1
    while k < here and k <= MOST_PAYLOAD + 1 and is_payload(stream[at + k]):
        k += 1
    if k == here:
        return SHORT if here <= MOST_PAYLOAD + 1 else NO_FRAME
    if k < 2 or k > MOST_PAYLOAD + 1 or stream[at + k] != 0x2A:
        return NO_FRAME
    if here < k + 5:
        return SHORT
    right = b'*%02X\r\n' % exclusive_or(stream[at + 1:at + k])
    return k + 5 if stream[at + k:at + k + 5] == right else NO_FRAME


# ---------------------------------------------------------------- the reading of a closed stream (docs/READING.md)

Record = namedtuple('Record', 'place kind data')  # data: all bytes of the record, header included
Entry = namedtuple('Entry', 'place length kind series verdict fault')


@functools.lru_cache(maxsize=2)
def reading(stream):
    """The records of a closed stream."""
    records, at = [], 0
    while at < len(stream):
        kind, length = 1, binary_verdict(stream, at)
        if length == NO_FRAME:
            kind, length = 2, sentence_verdict(stream, at)
        if length in (NO_FRAME, SHORT):
            at += 1
            continue
        records.append(Record(at, kind, stream[at:at + length]))
        at += length
    return records


def series_of(record):
    return record.data[2] if record.kind == 1 and len(record.data) >= 3 else 0


def entry_of(record):
    return Entry(record.place, len(record.data), record.kind, series_of(record), *verdict(record))


# ---------------------------------------------------------------- verdicts (docs/FORMATS.md)

ACCEPTED = (0, 0)
UNCLAIMED = (10, 0)
DF3_SERIES = (0x15, 0x16, 0x18)
DF7_SERIES = (0x26,)
STRING_SERIES = (0xA0,)
COMMA, STAR = 0x2C, 0x2A


def format_of(record):
    if record.kind == 2:
        return 'sentence'
    series = series_of(record)
    if series in DF3_SERIES:
        return 'DF3'
    if series in DF7_SERIES:
        return 'DF7'
    return 'string' if series in STRING_SERIES else 'unknown'


def verdict(record):
    judge = {'DF3': df3_verdict, 'DF7': df7_verdict, 'string': string_verdict, 'sentence': sentence_fields_verdict}
    name = format_of(record)
    return judge[name](record.data) if name in judge else UNCLAIMED


def days_of_month(year, month):
    if month == 2:
        return 29 if year % 4 == 0 and (year % 100 != 0 or year % 400 == 0) else 28
    return 30 if month in (4, 6, 9, 11) else 31


def clock_fault(data, position):
    """The position of the first wrong field of the clock that begins here, or None."""
    year, month, day, hour, minute, second = data[position:position + 6]
    if month > 11:
        return position + 1
    if not 1 <= day <= days_of_month(1900 + year, month + 1):
        return position + 2
    for offset, value, most in ((3, hour, 23), (4, minute, 59), (5, second, 59)):
        if value > most:
            return position + offset
    return position + 6 if word(data, position + 6) > 9999 else None


def df3_shape(data):
    """(beams, cells, coordinates) and the numbers of velocities, amplitudes and correlations."""
    layout, configuration = word(data, 30), word(data, 2)
    beams, cells, coordinates = layout >> 12, layout & 1023, layout >> 10 & 3
    counts = [beams * cells if configuration >> bit & 1 else 0 for bit in (5, 6, 7)]
    return beams, cells, coordinates, counts


def df3_verdict(record):
    data = record[10:]
    if len(data) < 76:
        return 11, 4
    if data[0] != 3:
        return 12, 10
    if not 76 <= data[1] <= len(data):
        return 13, 11
    wrong = clock_fault(data, 8)
    if wrong is not None:
        return 14, 10 + wrong
    beams, cells, _, counts = df3_shape(data)
    if not 1 <= beams <= 5 or cells < 1:
        return 15, 40
    if data[1] + 2 * counts[0] + counts[1] + counts[2] > len(data):
        return 16, 12
    first = data[1] + 2 * counts[0] + counts[1]
    for position in [36, *range(first, first + counts[2])]:
        if data[position] > 100:
            return 17, 10 + position
    return ACCEPTED


def df7_verdict(record):
    data = record[10:]
    if len(data) < 60:
        return 11, 4
    if data[1] not in (0x30, 0x40):
        return 12, 11
    if not 60 <= word(data, 2) <= len(data):
        return 13, 12
    wrong = clock_fault(data, 24)
    return ACCEPTED if wrong is None else (14, 10 + wrong)


def string_verdict(record):
    return ACCEPTED if len(record) > 10 else (18, 4)


def sentence_fields_verdict(record):
    commas = [place for place in range(record.index(STAR)) if record[place] == COMMA]
    return ACCEPTED if len(commas) < 64 else (19, commas[63])


# ---------------------------------------------------------------- the lines of frames and intake


def lines(rows):
    return ''.join(row + '\n' for row in rows).encode()


def entry_line(entry):
    return ' '.join(map(str, entry))


def totals_line(accepted, records, passed, waiting=0):
    return f'accepted {accepted} records {records} passed {passed} waiting {waiting}'


def bytes_in(records):
    return sum(len(record.data) for record in records)


def frames_text(stream):
    records = reading(stream)
    rows = [f'{r.place} {len(r.data)} {r.kind} {series_of(r)}' for r in records]
    inside = bytes_in(records)
    return lines(rows + [f'bytes {len(stream)} frames {len(records)} framed {inside} passed {len(stream) - inside}'])


def closing_totals(stream, records):
    return totals_line(len(stream), len(records), len(stream) - bytes_in(records))


def intake_text(stream):
    """For a stream that the register of 3,968 entries can drain."""
    records = reading(stream)
    return lines([entry_line(entry_of(r)) for r in records] + [closing_totals(stream, records)])


# ---------------------------------------------------------------- the lines of fields (docs/FORMATS.md, docs/GUIDES.md)

GUIDES = {
    'DF3': "DF3: DVL Integrator's Guide (2023.1)",
    'DF7': "DF7: Integrator's Guide, Generation 2 2D Horizontal Profiler (2026.2)",
    'string': "string: Integrator's Guide, Generation 2 2D Horizontal Profiler (2026.2)",
    'sentence': 'sentence: DVL Operations and Integration (2025.1)',
    'unknown': 'unknown: no guide',
}

VERDICT_WORDS = {
    10: 'no format claims the record',
    11: 'too few data bytes',
    12: 'another version or instrument type',
    13: 'the offset is outside the data',
    14: 'the clock is not a date and time',
    15: 'the number of beams or cells is wrong',
    16: 'the arrays end outside the data',
    17: 'a correlation is above 100',
    18: 'the string record has no data',
    19: 'the sentence has more than 64 fields',
}


def decimal(value, digits):
    """The value times ten to minus digits, exactly, with that many decimals."""
    if digits <= 0:
        return str(value * 10 ** -digits)
    sign = '-' if value < 0 else ''
    text = str(abs(value)).rjust(digits + 1, '0')
    return f'{sign}{text[:-digits]}.{text[-digits:]}'


def scaled(digits, unit='', factor=1, start=0):
    """Writes a value as (start + factor × value) times ten to minus digits, with its unit."""
    return lambda value: decimal(start + factor * value, digits) + unit


def pattern(value):
    return f'0x{value:08X}'


# name, position, width of an item, number of items, signed, how a value is written
DF3_BEFORE_CLOCK = [
    ('version', 0, 1, 1, False, str), ('offset', 1, 1, 1, False, str), ('configuration', 2, 2, 1, False, str),
    ('serial', 4, 4, 1, False, str),
]
DF3_BEHIND_CLOCK = [
    ('sound speed', 16, 2, 1, False, scaled(1, ' m/s')), ('temperature', 18, 2, 1, True, scaled(2, ' °C')),
    ('pressure', 20, 4, 1, False, scaled(3, ' dbar')), ('heading', 24, 2, 1, False, scaled(2, '°')),
    ('pitch', 26, 2, 1, True, scaled(2, '°')), ('roll', 28, 2, 1, True, scaled(2, '°')),
    ('layout', 30, 2, 1, False, str), ('cell size', 32, 2, 1, False, scaled(3, ' m')),
    ('blanking', 34, 2, 1, False, scaled(2, ' m')), ('nominal correlation', 36, 1, 1, False, scaled(0, '%')),
    ('sensor temperature', 37, 1, 1, False, scaled(1, ' °C', factor=2, start=-40)),
    ('battery', 38, 2, 1, False, scaled(1, ' V')), ('magnetometer', 40, 2, 3, True, str),
    ('accelerometer', 46, 2, 3, True, str), ('ambiguity velocity', 52, 2, 1, False, None),
    ('data set', 54, 2, 1, False, str), ('energy', 56, 2, 1, False, str), ('velocity scaling', 58, 1, 1, True, str),
    ('power level', 59, 1, 1, True, scaled(0, ' dB')), ('magnetometer temperature', 60, 2, 1, True, scaled(3, ' °C')),
    ('clock temperature', 62, 2, 1, True, str), ('error', 64, 2, 1, False, str), ('extended status', 66, 2, 1, False, str),
    ('status', 68, 4, 1, False, str), ('ensemble counter', 72, 4, 1, False, str),
]
DF7_BEFORE_CLOCK = [
    ('version', 0, 1, 1, False, str), ('instrument type', 1, 1, 1, False, str), ('offset', 2, 2, 1, False, str),
    ('configuration', 4, 4, 1, False, str), ('types', 8, 4, 1, False, str), ('validity', 12, 1, 8, False, str),
    ('serial', 20, 4, 1, False, str),
]
DF7_PATTERNS = ['sound speed', 'temperature', 'pressure', 'absolute pressure', 'heading', 'pitch', 'roll']
DF7_BEHIND_CLOCK = [(name, 32 + 4 * i, 4, 1, False, pattern) for i, name in enumerate(DF7_PATTERNS)]


def items(data, position, width, count, signed):
    return [number(data[at:at + width], signed) for at in range(position, position + width * count, width)]


def part_line(name, place, values):
    return f'  {name}, {place}:' + ''.join(' ' + value for value in values)


def table_lines(data, table, velocity):
    rows = []
    for name, position, width, count, signed, written in table:
        values = items(data, position, width, count, signed)
        rows.append(part_line(name, position + 10, map(written or velocity, values)))
    return rows


def clock_line(data, position):
    year, month, day, hour, minute, second = data[position:position + 6]
    date = f'{1900 + year:04}-{month + 1:02}-{day:02}'
    time = f'{hour:02}:{minute:02}:{second:02}.{word(data, position + 6):04}'
    return part_line('clock', position + 10, [f'{date} {time}'])


def bytes_line(name, data, start, end):
    return part_line(name, start + 10, map(str, data[start:end]))


def beam_lines(values, cells):
    beams = [values[i:i + cells] for i in range(0, len(values), cells)]
    return [f'    beam {i}: ' + ' '.join(beam) for i, beam in enumerate(beams, 1)]


def df3_lines(record):
    data = record[10:]
    velocity = scaled(-number(data[58:59], True), ' m/s')
    rows = table_lines(data, DF3_BEFORE_CLOCK, velocity) + [clock_line(data, 8)]
    rows += table_lines(data, DF3_BEHIND_CLOCK, velocity) + [bytes_line('spare', data, 76, data[1])]
    _, cells, _, counts = df3_shape(data)
    arrays = [('velocities', 2, True, velocity), ('amplitudes', 1, False, scaled(1, ' dB', factor=5)),
              ('correlations', 1, False, scaled(0, '%'))]
    position = data[1]
    for (name, width, signed, written), count in zip(arrays, counts):
        rows.append(part_line(name, position + 10, []))
        rows += beam_lines([written(value) for value in items(data, position, width, count, signed)], cells)
        position += width * count
    return rows + [bytes_line('tail', data, position, len(data))]


def df7_lines(record):
    data = record[10:]
    offset = word(data, 2)
    rows = table_lines(data, DF7_BEFORE_CLOCK, None) + [clock_line(data, 24)] + table_lines(data, DF7_BEHIND_CLOCK, None)
    return rows + [bytes_line('spare', data, 60, offset), bytes_line('tail', data, offset, len(data))]


def text_line(name, place, text):
    shown = ''.join(chr(b) if 0x20 <= b <= 0x7E and b != 0x5C else f'\\x{b:02X}' for b in text)
    return part_line(name, place, [shown] if shown else [])


def string_lines(record):
    final = len(record) > 11 and record[-1] == 0
    end = len(record) - 1 if final else len(record)
    rows = [part_line('identifier', 10, [str(record[10])]), text_line('text', 11, record[11:end])]
    return rows + [part_line('end', end, ['0'])] * final


def sentence_lines(record):
    rows, place = [], 1
    for i, field in enumerate(record[1:record.index(STAR)].split(b','), 1):
        rows.append(text_line(f'field {i}', place, field))
        place += len(field) + 1
    return rows


def record_lines(record):
    """What `fields` prints of one record."""
    entry, name = entry_of(record), format_of(record)
    rows = [entry_line(entry), '  ' + GUIDES[name]]
    if entry.verdict:
        return rows + [f'  refused, {entry.verdict} at {entry.fault}: {VERDICT_WORDS[entry.verdict]}']
    parts = {'DF3': df3_lines, 'DF7': df7_lines, 'string': string_lines, 'sentence': sentence_lines}
    return rows + parts[name](record.data)


def fields_text(stream):
    records = reading(stream)
    return lines([row for record in records for row in record_lines(record)] + [closing_totals(stream, records)])


# ---------------------------------------------------------------- blocks (docs/BLOCKS.md)

BLOCK, ENTRIES, MOST_BLOCKS = 512, 31, 128
REGISTER = ENTRIES * MOST_BLOCKS
ENTRY_WIDTHS = (8, 2, 1, 1, 2, 2)


def entry_bytes(entry):
    return b''.join(field.to_bytes(width, 'little') for field, width in zip(entry, ENTRY_WIDTHS))


def entry_from(data):
    fields, at = [], 0
    for width in ENTRY_WIDTHS:
        fields.append(number(data[at:at + width]))
        at += width
    return Entry(*fields)


def sealed(front):
    """A block from its first 510 bytes."""
    return front + checksum(front).to_bytes(2, 'little')


def block(entries, index):
    front = b''.join(map(entry_bytes, entries)).ljust(496, b'\0')
    return sealed(front + len(entries).to_bytes(2, 'little') + index.to_bytes(4, 'little') + bytes(8))


def packed(entries):
    return b''.join(block(entries[i:i + ENTRIES], i // ENTRIES) for i in range(0, len(entries), ENTRIES))


def block_holds(data, index, last):
    """Whether the block has the right count and number, the eight zeros, and free entries that are zero."""
    count = word(data, 496)
    right_count = 1 <= count <= ENTRIES if last else count == ENTRIES
    return right_count and number(data[498:502]) == index and not any(data[502:510]) and not any(data[16 * count:496])


def unpack_refusal(data):
    """(number, place) of the refusal, or None."""
    if len(data) % BLOCK or len(data) > BLOCK * MOST_BLOCKS:
        return 28, 0
    blocks = [data[i:i + BLOCK] for i in range(0, len(data), BLOCK)]
    for i, b in enumerate(blocks):
        if checksum(b[:510]) != word(b, 510):
            return 29, i
    for i, b in enumerate(blocks):
        if not block_holds(b, i, i == len(blocks) - 1):
            return 30, i
    return None


def unpacked(data):
    """The entries of blocks that are not refused."""
    entries = []
    for at in range(0, len(data), BLOCK):
        count = word(data, at + 496)
        entries += [entry_from(data[at + 16 * i:at + 16 * i + 16]) for i in range(count)]
    return entries


def entries_text(entries):
    return lines(map(entry_line, entries))


# ---------------------------------------------------------------- tags (docs/WRITING.md)


def tag(text):
    """The tag record of a text, or None where it is too long for one record."""
    data = b'\x13' + text + b'\0'
    return binary_frame(0xA0, data) if len(data) <= MOST_DATA else None
