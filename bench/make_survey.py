"""Writes a large survey to standard output: velocity records, sentences, string records and a little noise. usage: make_survey.py MEGABYTES [noise|frames|mixed]"""
import random
import struct
import sys



def checksum(b):
    words = sum(struct.unpack(f'<{len(b) // 2}H', b[:len(b) // 2 * 2]))
    return (0xB58C + words + (b[-1] << 8 if len(b) % 2 else 0)) % 65536


def frame(series, data):
    head = struct.pack('<BBBBHH', 0xA5, 10, series, 0x10, len(data), checksum(data))
    return head + struct.pack('<H', checksum(head)) + data


def velocity(rng):
    beams, cells = rng.choice([(3, 20), (4, 40), (4, 100), (5, 30)])
    d = bytearray(rng.randbytes(76))
    d[0], d[1] = 3, 76
    struct.pack_into('<H', d, 2, 0b11100000)
    d[8:14] = bytes([126, rng.randrange(12), rng.randrange(1, 29), rng.randrange(24), rng.randrange(60), rng.randrange(60)])
    struct.pack_into('<H', d, 14, rng.randrange(10000))
    struct.pack_into('<H', d, 30, cells | rng.randrange(3) << 10 | beams << 12)
    d[36] = rng.randrange(101)
    n = beams * cells
    return frame(rng.choice([0x15, 0x16, 0x18]), bytes(d) + rng.randbytes(3 * n) + bytes(rng.randrange(101) for _ in range(n)))


def sentence(rng):
    payload = b'PNORC1,083013,132455,' + ','.join(f'{rng.randrange(10000) / 100}' for _ in range(8)).encode()
    x = 0
    for b in payload:
        x ^= b
    return b'$%s*%02X\r\n' % (payload, x)


def text(rng):
    return frame(0xA0, b'\x13' + bytes(rng.choices(b'abcdefgh ', k=40)) + b'\0')


def piece(rng, kind):
    if kind == 'noise':
        return rng.randbytes(4096)
    if kind == 'frames':
        return velocity(rng)
    make = rng.choices([velocity, sentence, text], [8, 3, 1])[0]
    return make(rng) + (rng.randbytes(rng.randrange(12)) if rng.randrange(5) == 0 else b'')


def main():
    size = int(float(sys.argv[1]) * 1_000_000)
    kind = sys.argv[2] if len(sys.argv) > 2 else 'mixed'
    rng = random.Random(1)
    pieces = [piece(rng, kind) for _ in range(2000)]
    written = 0
    while written < size:
        p = rng.choice(pieces)
        sys.stdout.buffer.write(p)
        written += len(p)


main()
