"""An independent decoder of AD2CP streams, written from the rules in docs/, to compare the programs with."""
import calendar
import struct


def checksum(b):
    s = 0xB58C
    for i in range(0, len(b) - 1, 2):
        s += b[i] | b[i + 1] << 8
    if len(b) % 2:
        s += b[-1] << 8
    return s & 0xFFFF


def binary(b):
    """None for no frame, 'short', or (length, kind)."""
    if not b:
        return 'short'
    if b[0] != 0xA5:
        return None
    if len(b) < 2:
        return 'short'
    if b[1] != 10:
        return None
    if len(b) < 10:
        return 'short'
    family, size, data_sum, header_sum = b[3], *struct.unpack('<HHH', b[4:10])
    if family != 0x10 or header_sum != checksum(b[:8]) or size > 8182:
        return None
    if len(b) < 10 + size:
        return 'short'
    return (10 + size, 1) if checksum(b[10:10 + size]) == data_sum else None


def is_payload(c):
    return 0x20 <= c <= 0x7E and c not in b'$*'


def sentence(b):
    if not b:
        return 'short'
    if b[0] != ord('$'):
        return None
    k = 1
    while k < len(b) and is_payload(b[k]):
        k += 1
    if k == len(b):
        return 'short' if len(b) <= 507 else None
    if not 2 <= k <= 507 or b[k] != ord('*'):
        return None
    if len(b) < k + 5:
        return 'short'
    x = 0
    for c in b[1:k]:
        x ^= c
    return (k + 5, 2) if b[k + 1:k + 5] == b'%02X\r\n' % x else None


def pair(b):
    v = binary(b)
    return sentence(b) if v is None else v


def records(b):
    """The records of a closed stream: (place, bytes, kind)."""
    p = 0
    while p < len(b):
        v = pair(b[p:p + 8192])
        if isinstance(v, tuple):
            yield p, b[p:p + v[0]], v[1]
            p += v[0]
        else:
            p += 1


def series(r, kind):
    return r[2] if kind == 1 and len(r) >= 3 else 0


def clock_fault(data, at):
    """The place in the record of the first wrong field of a clock, or None."""
    year, month, day, hour, minute, second, hundred = struct.unpack_from('<6BH', data, at)
    if month > 11:
        return at + 11
    days = calendar.monthrange(1900 + year, month + 1)[1]
    wrong = [not 1 <= day <= days, hour > 23, minute > 59, second > 59, hundred > 9999]
    return at + 12 + wrong.index(True) if True in wrong else None


def df3_verdict(data):
    if len(data) < 76:
        return (11, 4)
    if data[0] != 3:
        return (12, 10)
    if not 76 <= data[1] <= len(data):
        return (13, 11)
    place = clock_fault(data, 8)
    if place is not None:
        return (14, place)
    config, layout = struct.unpack_from('<H', data, 2)[0], struct.unpack_from('<H', data, 30)[0]
    beams, cells = layout >> 12, layout & 0x3FF
    if not 1 <= beams <= 5 or cells == 0:
        return (15, 40)
    n = beams * cells
    first = data[1] + (2 * n if config & 0x20 else 0) + (n if config & 0x40 else 0)
    end = first + (n if config & 0x80 else 0)
    if end > len(data):
        return (16, 12)
    for i in [36, *range(first, end)]:
        if data[i] > 100:
            return (17, 10 + i)
    return (0, 0)


def df7_verdict(data):
    if len(data) < 60:
        return (11, 4)
    if data[1] not in (0x30, 0x40):
        return (12, 11)
    if not 60 <= struct.unpack_from('<H', data, 2)[0] <= len(data):
        return (13, 12)
    place = clock_fault(data, 24)
    return (0, 0) if place is None else (14, place)


def verdict(r, kind):
    """The verdict on a record and the place of its fault."""
    if kind == 1 and len(r) >= 10 and r[2] == 0xA0:
        return (0, 0) if len(r) > 10 else (18, 4)
    if kind == 1 and len(r) >= 10 and r[2] in (0x15, 0x16, 0x18):
        return df3_verdict(r[10:])
    if kind == 1 and len(r) >= 10 and r[2] == 0x26:
        return df7_verdict(r[10:])
    if kind == 2 and r[:1] == b'$' and b'*' in r:
        commas = [i for i in range(r.index(b'*')) if r[i] == ord(',')]
        return (0, 0) if len(commas) < 64 else (19, commas[63])
    return (10, 0)


def frame(series_number, data):
    h = bytes([0xA5, 10, series_number, 0x10]) + struct.pack('<HH', len(data), checksum(data))
    return h + struct.pack('<H', checksum(h)) + data


def line(payload):
    x = 0
    for c in payload:
        x ^= c
    return b'$' + payload + b'*%02X\r\n' % x


TAG = frame(0xA0, b'\x13' + b'2017-01-24 08:42:57.449 - This is a test tag.' + b'\0')
PNORC1 = b'$PNORC1,083013,132455,3,11.0,0.332,0.332,0.332,78.9,78.9,78.9,78,78,78*46\r\n'
PAYLOAD = bytes(c for c in range(0x20, 0x7F) if is_payload(c))


def clock(r):
    """A clock that is right, or at the edge of it, or past it."""
    wrong = r.randrange(12)
    return struct.pack('<6BH', r.choice([0, 100, 123, 124, 200, 255]), r.choice([0, 1, 3, 11, 12] if wrong == 0 else [0, 1, 3, 11]),
                       r.choice([0, 28, 29, 30, 31, 32] if wrong == 1 else [1, 28]), r.choice([23, 24] if wrong == 2 else [0, 23]),
                       r.choice([59, 60] if wrong == 3 else [0, 59]), r.choice([59, 60] if wrong == 4 else [0, 59]),
                       r.choice([9999, 10000, 65535] if wrong == 5 else [0, 9999]))


def df3(r):
    """The data of a DF3 record, whole or with a fault."""
    beams, cells, config = r.choice([0, 1, 2, 3, 4, 4, 5, 6]), r.choice([0, 1, 2, 20, 150]), r.randrange(65536)
    offset, n = r.choice([75, 76, 76, 76, 80, 255]), beams * cells
    size = max(76, offset) + n * ((2 if config & 0x20 else 0) + (1 if config & 0x40 else 0) + (1 if config & 0x80 else 0)) + r.choice([-1, 0, 0, 0, 1, 9])
    d = bytearray(r.choice([100, 99, 0]) for _ in range(max(size, 0)))
    d[:] = d[:r.choice([75, size, size, size, size])]
    head = struct.pack('<BBH', r.choice([3, 3, 3, 3, 3, 7]), offset, config) + r.randbytes(4) + clock(r)
    d[:len(head)] = head
    if len(d) >= 76:
        d[30:32] = struct.pack('<H', beams << 12 | r.randrange(4) << 10 | cells)
        d[36] = r.choice([100, 100, 100, 0, 101])
        d[58] = r.choice([-128, -20, -19, -18, -3, -3, -3, 0, 2, 127]) & 0xFF
        if config & 0x20:
            d[offset:offset + 2 * n] = r.randbytes(len(d[offset:offset + 2 * n]))
        if r.randrange(3) == 0:
            d[r.randrange(len(d))] = r.randrange(256)
    return bytes(d)


def df7(r):
    """The data of a DF7 record, whole or with a fault."""
    size = r.choice([59, 60, 61, 100, 100, 300])
    d = bytearray(r.randbytes(size))
    d[:4] = struct.pack('<BBH', 1, r.choice([0x30, 0x40, 0x40, 0x31]), r.choice([59, 60, 60, size, size + 1]))
    d[24:32] = clock(r)
    return bytes(d)


def random_stream(r):
    """A stream of frames, damaged frames, sentences and noise."""
    b = b''
    for _ in range(r.randrange(1, 12)):
        c = r.randrange(11)
        if c == 0:
            b += frame(r.randrange(256), r.randbytes(r.choice([0, 1, 2, 7, 50, 300, 8181, 8182])))
        elif c == 1:
            b += line(bytes(r.choice(PAYLOAD) for _ in range(r.choice([1, 5, 60, 505, 506, 507]))))
        elif c == 2:
            b += r.randbytes(r.randrange(30))
        elif c == 3:
            b += bytes(r.choice(b'\xa5\x0a$*\r') for _ in range(r.randrange(20)))
        elif c == 4:
            m = bytearray(frame(0x15, r.randbytes(40)))
            m[r.randrange(len(m))] ^= 1 << r.randrange(8)
            b += bytes(m)
        elif c == 5:
            b += frame(0xA0, r.randbytes(60))[:r.randrange(70)]
        elif c == 6:
            b += frame(0xA0, r.randbytes(r.randrange(3)))
        elif c == 7:
            b += frame(0x26, df7(r))
        elif c in (8, 9):
            b += frame(r.choice([0x15, 0x16, 0x18]), df3(r))
        else:
            b += line(b'A' + b','.join(bytes(r.choice(b'0123456789.-') for _ in range(r.randrange(4))) for _ in range(r.choice([1, 14, 63, 64, 65, 66]))))
    return b
