#!/usr/bin/env python3
"""Makes the cards that the programs `listing` and `listings` run on, and what they must write.

Everything here is computed from the documents' rules, with nothing of the Rattle code: a card is packed, read and built in Python, and
the listing is made from that. Without arguments the files are written; with `--check` they are compared, and a difference is an error.

    crates/listing/stdin, stdout     transcript A
    crates/listings/stdin, stdout    many cards one after the other, each with its size before it, 32 bits, little-endian
"""
import pathlib
import struct
import sys

ROOT = pathlib.Path(__file__).resolve().parent.parent
LARGEST_CARD, MOST_RECORDS, MOST_SEGMENTS, MOST_TEXT = 65536, 512, 2048, 4096
LARGEST_COUNT, LARGEST_END = 2147483647, 2000000000


class Refused(Exception):
    pass


def refuse_if(test, number):
    if test:
        raise Refused(number)


# ---- the card

def record(alt_start, alt_end, tx_start, tx_end, order, cigar):
    return struct.pack('<5iH', alt_start, alt_end, tx_start, tx_end, order, len(cigar)) + cigar


def card(strand, start, end, records, version=1, mark=b'TXC'):
    bits = (start is not None) + 2 * (end is not None)
    numbers = struct.pack('<HBBiiH', version, strand, bits, start or 0, end or 0, len(records))
    return mark + numbers + b''.join(records)


def read(data):
    """The strand, the CDS bounds and the records of a card."""
    refuse_if(len(data) > LARGEST_CARD, 3)
    refuse_if(len(data) < 5 or data[:3] != b'TXC', 21)
    refuse_if(struct.unpack_from('<H', data, 3)[0] != 1, 22)
    refuse_if(len(data) < 17, 21)
    strand, bits, start, end, count = struct.unpack_from('<BBiiH', data, 5)
    refuse_if(strand > 1 or bits > 3, 21)
    refuse_if(not bits & 1 and start != 0 or not bits & 2 and end != 0, 21)
    at, records = 17, []
    for _ in range(count):
        refuse_if(len(data) < at + 22, 21)
        *numbers, size = struct.unpack_from('<5iH', data, at)
        refuse_if(len(data) < at + 22 + size, 21)
        records.append((*numbers, data[at + 22:at + 22 + size]))
        at += 22 + size
    refuse_if(at != len(data), 21)
    return 1 - 2 * strand, start if bits & 1 else None, end if bits & 2 else None, records


# ---- building

def elements(text, used):
    """A CIGAR's elements in text order, after `used` segments."""
    found, digits = [], ''
    for byte in text.decode('latin-1'):
        if byte in '0123456789':
            digits += byte
            continue
        refuse_if(byte not in '=DIMNX', 7)
        count = int(digits or '1')
        refuse_if(count > LARGEST_COUNT, 8)
        refuse_if(used + len(found) == MOST_SEGMENTS, 3)
        found.append((byte, count))
        digits = ''
    refuse_if(digits, 7)
    return found


def judge_bounds(strand, records):
    """4, 5 and 6 of each record in turn."""
    before = None
    for this in records:
        alt_start, alt_end, tx_start, tx_end, order, _ = this
        refuse_if(min(alt_start, alt_end, tx_start, tx_end) < 0, 4)
        refuse_if(alt_end < alt_start or tx_end < tx_start, 4)
        if before:
            refuse_if(alt_start < before[1], 4)
            first, second = (before, this) if strand == 1 else (this, before)
            refuse_if(second[4] <= first[4], 5)
            refuse_if(first[3] != second[2], 6)
        before = this


def build(strand, start, end, records):
    """The segments in genomic order, each a letter and a count."""
    refuse_if(not records, 1)
    refuse_if(len(records) > MOST_RECORDS, 3)
    judge_bounds(strand, records)
    refuse_if((start is None) != (end is None), 11)
    segments, before = [], None
    for this in records:
        refuse_if(len(this[5]) > MOST_TEXT, 3)
        if before:
            refuse_if(len(segments) == MOST_SEGMENTS, 3)
            segments.append(('N', this[0] - before[1]))
        own = elements(this[5], len(segments))
        refuse_if(sum(along(*element)[0] for element in own) != this[1] - this[0], 32)
        segments += own[::strand]
        before = this
    refuse_if(not segments, 10)
    genome = sum(along(letter, count)[0] for letter, count in segments)
    transcript = sum(along(letter, count)[1] for letter, count in segments)
    refuse_if(transcript > LARGEST_END or records[0][0] + genome > LARGEST_END, 9)
    refuse_if(start is not None and not 0 <= start <= end <= transcript, 12)
    return segments, genome, transcript


def along(letter, count):
    """How far an element goes along the genome and along the transcript."""
    return (count if letter in '=MXIN' else 0), (count if letter in '=MXD' else 0)


# ---- the listing

def listing(data):
    try:
        strand, start, end, records = read(data)
        segments, genome, transcript = build(strand, start, end, records)
    except Refused as refusal:
        return 'refused %d\n' % refusal.args[0]
    lines = ['TXC %s %d %d %d' % ('+' if strand == 1 else '-', len(segments), genome, transcript)]
    g = t = 0
    for letter, count in segments:
        lines.append('%s %d %d %d' % (letter, g, t, count))
        g, t = g + along(letter, count)[0], t + along(letter, count)[1]
    return ''.join(line + '\n' for line in lines)


# ---- the cards

A = card(0, 3, 15, [record(10, 20, 0, 10, 0, b'10M'), record(25, 33, 10, 18, 1, b'8M')])
B = card(1, 3, 15, [record(10, 20, 8, 18, 1, b'10M'), record(25, 33, 0, 8, 0, b'8M')])
A_LISTED = 'TXC + 3 23 18\nM 0 0 10\nN 10 10 5\nM 15 10 8\n'


def length(cigar):
    """How far a CIGAR goes along the genome, and 0 where it can't be read."""
    try:
        return sum(along(*element)[0] for element in elements(cigar, 0))
    except Refused:
        return 0


def single(cigar, start=None, end=None, strand=0, at=0):
    return card(strand, start, end, [record(at, at + length(cigar), 0, 0, 0, cigar)])


def chain(count, cigar):
    """That many touching records on strand 1."""
    n = length(cigar)
    return [record(n * i, n * i + n, i, i + 1, i, cigar) for i in range(count)]


def bounded(alt_start, alt_end, cigar, *others, strand=0, start=None, end=None):
    """A record of genome bounds and a CIGAR, and others after it."""
    return card(strand, start, end, [record(alt_start, alt_end, 0, 0, 0, cigar), *others])


def largest():
    """A card of 65,536 bytes with 512 records and 2,048 segments, whose counts have leading zeros."""
    left, room, records, at = MOST_SEGMENTS - (MOST_RECORDS - 1), LARGEST_CARD - 17 - 22 * MOST_RECORDS, [], 0
    for i in range(MOST_RECORDS):
        number, size = left // (MOST_RECORDS - i), room // (MOST_RECORDS - i)
        cigar, taken = b'', 0
        for k in range(number):
            width = (size - taken) // (number - k)
            cigar += b'%0*d%c' % (width - 1, 1000 * i + k, b'=DIMNX'[(i + k) % 6])
            taken += width
        records.append(record(at, at + length(cigar), 3 * (511 - i), 3 * (512 - i), -i, cigar))
        left, room, at = left - number, room - size, at + length(cigar) + 1000
    return card(1, 0, 100000, records)


def changed(data, at, byte):
    return data[:at] + bytes([byte]) + data[at + 1:]


CARDS = [
    A,
    B,
    # every letter, counts left out, 0 and with leading zeros; two empty records; one empty segment
    single(b'M0X3=2I4D007N', at=100),
    single(b'M0X3=2I4D007N', at=100, strand=1),
    card(0, None, None, [record(5, 5, 0, 0, -7, b''), record(7, 7, 0, 0, 3, b'')]),
    single(b'0M'),
    single(b'2000000000M'),
    single(b'1999999993M', at=7),
    card(0, 0, 0, chain(512, b'3M')),
    single(b'M' * 2048),
    single(b'0' * 4095 + b'M'),
    largest(),
    # 1
    card(0, None, None, []),
    # 3: a card's bytes, records, a CIGAR's bytes, an element and a gap past 2,048 segments
    changed(largest() + b'M', 0, 0),
    card(0, None, None, chain(513, b'')),
    single(b'S' * 4097),
    single(b'M' * 2049),
    card(0, None, None, [record(0, 2048, 0, 1, 0, b'M' * 2048), record(2048, 2049, 1, 2, 1, b'S')]),
    # 4: a bound below 0, an end below its start, a start below the previous end
    card(0, None, None, [record(-1, 0, 0, 0, 0, b'M')]),
    card(0, None, None, [record(1, 0, 0, 0, 0, b'M')]),
    card(0, None, None, [record(0, 0, 1, 0, 0, b'M')]),
    card(0, None, None, [record(0, 5, 0, 5, 0, b'5M'), record(4, 9, 0, 5, 0, b'5M')]),
    # 5 and 6 on the two strands
    card(0, None, None, [record(0, 5, 0, 5, 1, b'5M'), record(5, 9, 5, 9, 1, b'4M')]),
    card(1, None, None, [record(0, 5, 4, 9, 1, b'5M'), record(5, 9, 0, 4, 2, b'4M')]),
    card(0, None, None, [record(0, 5, 0, 5, 0, b'5M'), record(5, 9, 6, 10, 1, b'4M')]),
    card(1, None, None, [record(0, 5, 5, 10, 1, b'5M'), record(5, 9, 0, 4, 0, b'4M')]),
    # 6 of a later record, and 11, before the size of the first CIGAR
    card(0, None, None, [record(0, 5, 0, 5, 0, b'M' * 4097), record(5, 9, 6, 10, 1, b'4M')]),
    single(b'M' * 4097, start=0),
    # 7, and 7 before 8
    single(b'5S'),
    single(b'3M5'),
    single(b'99999999999S'),
    # 8
    single(b'99999999999M'),
    # 9: a transcript length, a first start and a genome length
    single(b'2000000000M1D'),
    single(b'2000000000M', at=1),
    single(b'5D', at=2000000001),
    # 10
    single(b''),
    # 11
    single(b'5M', start=0),
    single(b'5M', end=0),
    # 12
    single(b'5M', start=-1, end=0),
    single(b'5M', start=3, end=2),
    single(b'5M', start=0, end=6),
    # 32: too short and too long; by the transcript's length alone; by a length of 2^32 on no base; of a later record, on strand -1 too
    bounded(10, 33, b'20M'),
    bounded(10, 33, b'24M'),
    bounded(10, 20, b'7M3D'),
    bounded(0, 0, b'2147483647M2147483647M2M'),
    bounded(0, 5, b'5M', record(8, 12, 0, 0, 1, b'3M')),
    card(1, None, None, [record(0, 5, 0, 0, 1, b'5M'), record(8, 12, 0, 0, 0, b'3M')]),
    # and not: the I and the N of a record count, and a D does not
    bounded(10, 20, b'2M3I4D4N1M'),
    # after the record's own 3, 7 and 8, and before the next record's
    bounded(0, 5, b'S' * 4097),
    bounded(0, 5, b'M' * 2049),
    bounded(0, 5, b'4MS'),
    bounded(0, 5, b'4M2147483648M'),
    bounded(0, 5, b'4M', record(5, 6, 0, 0, 1, b'S' * 4097)),
    bounded(0, 5, b'M' * 2048, record(5, 6, 0, 0, 1, b'')),
    bounded(0, 5, b'4M', record(5, 6, 0, 0, 1, b'S')),
    # before 10, 9 and 12, and after 6 and 11
    bounded(0, 5, b''),
    bounded(2000000001, 2000000006, b'4M'),
    bounded(0, 5, b'4M2000000000D'),
    bounded(0, 5, b'4M', start=0, end=6),
    bounded(0, 5, b'4M', record(5, 6, 1, 1, 1, b'M')),
    bounded(0, 5, b'4M', start=0),
    # 21: under 5 bytes, a wrong mark before a wrong version, cut short, a strand byte, a CDS byte, a number that is not given, a byte too many
    b'',
    b'TXC\1',
    card(0, 3, 15, [], version=2, mark=b'TXD'),
    A[:16],
    A[:-1],
    A[:38],
    changed(A, 5, 2),
    changed(A, 6, 7),
    changed(A, 6, 2),
    changed(A, 6, 1),
    A + b'\0',
    # 22, before all else that is wrong with a card
    changed(A, 3, 2),
    b'TXC\1\1',
]

FILES = {
    'listing/stdin': A,
    'listing/stdout': A_LISTED.encode(),
    'listings/stdin': b''.join(struct.pack('<I', len(data)) + data for data in CARDS),
    'listings/stdout': ''.join(map(listing, CARDS)).encode(),
}


def hold(files, maker):
    """Writes the files of programs, or with `--check` compares them, and ends."""
    wrong = []
    for name, data in files.items():
        path = ROOT / 'crates' / name
        if '--check' in sys.argv:
            wrong += [] if path.read_bytes() == data else [name]
        else:
            path.parent.mkdir(parents=True, exist_ok=True)
            path.write_bytes(data)
    for name in wrong:
        print('%s: not what %s makes' % (name, maker))
    sys.exit(bool(wrong))


def main():
    assert listing(A) == A_LISTED
    assert len(largest()) == LARGEST_CARD and listing(largest()).startswith('TXC - 2048 ')
    hold(FILES, 'checks/cards.py')


if __name__ == '__main__':
    main()
