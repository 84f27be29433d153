"""An independent printer of records, as docs/FORMATS.md describes the lines of the program `fields`."""
import struct
from decimal import Decimal

import decoder as d

# name, type, power of ten (or a mark), unit
DF3 = [
    ('version', 'B'), ('offset', 'B'), ('configuration', 'H'), ('serial', 'I'), ('clock', '8s'),
    ('sound speed', 'H', -1, ' m/s'), ('temperature', 'h', -2, ' °C'), ('pressure', 'I', -3, ' dbar'),
    ('heading', 'H', -2, '°'), ('pitch', 'h', -2, '°'), ('roll', 'h', -2, '°'), ('layout', 'H'),
    ('cell size', 'H', -3, ' m'), ('blanking', 'H', -2, ' m'), ('nominal correlation', 'B', 0, '%'),
    ('sensor temperature', 'B', 'fifths', ' °C'), ('battery', 'H', -1, ' V'), ('magnetometer', '3h'), ('accelerometer', '3h'),
    ('ambiguity velocity', 'H', 'scaling', ' m/s'), ('data set', 'H'), ('energy', 'H'), ('velocity scaling', 'b'),
    ('power level', 'b', 0, ' dB'), ('magnetometer temperature', 'h', -3, ' °C'), ('clock temperature', 'h'), ('error', 'H'),
    ('extended status', 'H'), ('status', 'I'), ('ensemble counter', 'I')]
DF7 = [
    ('version', 'B'), ('instrument type', 'B'), ('offset', 'H'), ('configuration', 'I'), ('types', 'I'), ('validity', '8B'),
    ('serial', 'I'), ('clock', '8s')] + [(name, 'I', 'pattern') for name in (
        'sound speed', 'temperature', 'pressure', 'absolute pressure', 'heading', 'pitch', 'roll')]
GEN2 = "Integrator's Guide, Generation 2 2D Horizontal Profiler (2026.2)"
WORDS = {10: 'no format claims the record', 11: 'too few data bytes', 12: 'another version or instrument type',
         13: 'the offset is outside the data', 14: 'the clock is not a date and time', 15: 'the number of beams or cells is wrong',
         16: 'the arrays end outside the data', 17: 'a correlation is above 100', 18: 'the string record has no data',
         19: 'the sentence has more than 64 fields'}


def value(x, scale, unit, scaling):
    if isinstance(x, bytes):
        y, mo, da, h, mi, s, hundred = struct.unpack('<6BH', x)
        return f' {1900 + y}-{mo + 1:02}-{da:02} {h:02}:{mi:02}:{s:02}.{hundred:04}'
    if scale == 'pattern':
        return f' 0x{x:08X}'
    if scale == 'fifths':
        return f' {Decimal(x) / 5 - 4:.1f}{unit}'
    if scale == 'scaling':
        scale = scaling
    return f' {Decimal(x).scaleb(scale):f}{unit}' if x or scale < 0 else f' 0{unit}'


def table(fields, data, scaling=0):
    place = 0
    for name, form, scale, unit in ((*f, 0, '')[:4] if len(f) < 4 else f for f in fields):
        items = struct.unpack_from('<' + form, data, place)
        yield f'  {name}, {place + 10}:' + ''.join(value(x, scale, unit, scaling) for x in items)
        place += struct.calcsize('<' + form)


def numbers(name, place, items):
    return f'  {name}, {place + 10}:' + ''.join(f' {x}' for x in items)


def array(name, place, items, cells, shown):
    yield f'  {name}, {place + 10}:'
    for k in range(0, len(items), cells):
        yield f'    beam {k // cells + 1}:' + ''.join(' ' + shown(x) for x in items[k:k + cells])


def df3(data):
    offset, config, layout, scaling = data[1], *struct.unpack_from('<H26xH', data, 2), struct.unpack_from('b', data, 58)[0]
    cells = layout & 0x3FF
    n = [cells * (layout >> 12) * (config >> bit & 1) for bit in (5, 6, 7)]
    a = offset + 2 * n[0]
    c = a + n[1]
    yield from table(DF3, data, scaling)
    yield numbers('spare', 76, data[76:offset])
    yield from array('velocities', offset, struct.unpack_from(f'<{n[0]}h', data, offset), cells, lambda x: value(x, 'scaling', ' m/s', scaling).strip())
    yield from array('amplitudes', a, data[a:c], cells, lambda x: f'{x / 2:.1f} dB')
    yield from array('correlations', c, data[c:c + n[2]], cells, lambda x: f'{x}%')
    yield numbers('tail', c + n[2], data[c + n[2]:])


def df7(data):
    offset = struct.unpack_from('<H', data, 2)[0]
    yield from table(DF7, data)
    yield numbers('spare', 60, data[60:offset])
    yield numbers('tail', offset, data[offset:])


def text(name, place, b):
    return f'  {name}, {place}:' + (' ' + ''.join(chr(c) if 0x20 <= c <= 0x7E and c != 0x5C else f'\\x{c:02X}' for c in b) if b else '')


def string(r):
    zero = len(r) > 11 and r[-1] == 0
    yield numbers('identifier', 0, r[10:11])
    yield text('text', 11, r[11:-1] if zero else r[11:])
    if zero:
        yield f'  end, {len(r) - 1}: 0'


def sentence(r):
    place = 1
    for i, field in enumerate(r[1:r.index(b'*')].split(b',')):
        yield text(f'field {i + 1}', place, field)
        place += len(field) + 1


def described(r, kind):
    """The line of the guide, and the lines of the parts of an accepted record."""
    series = d.series(r, kind)
    if kind == 2:
        return '  sentence: DVL Operations and Integration (2025.1)', lambda: sentence(r)
    if series in (0x15, 0x16, 0x18):
        return "  DF3: DVL Integrator's Guide (2023.1)", lambda: df3(r[10:])
    if series == 0x26:
        return '  DF7: ' + GEN2, lambda: df7(r[10:])
    if series == 0xA0:
        return '  string: ' + GEN2, lambda: string(r)
    return '  unknown: no guide', None


def printed(b):
    """What `fields` prints of a stream."""
    out, inside, count = [], 0, 0
    for place, r, kind in d.records(b):
        number, fault = d.verdict(r, kind)
        guide, parts = described(r, kind)
        out += [f'{place} {len(r)} {kind} {d.series(r, kind)} {number} {fault}', guide]
        out += parts() if number == 0 else [f'  refused, {number} at {fault}: {WORDS[number]}']
        inside += len(r)
        count += 1
    out.append(f'accepted {len(b)} records {count} passed {len(b) - inside} waiting 0')
    return ('\n'.join(out) + '\n').encode()
