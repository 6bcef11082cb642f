#!/usr/bin/env python3
"""Makes the card and the log that the program `replay` runs on, and what it must write.

Everything here is computed from the documents' rules, with nothing of the Rattle code: the six mappings are answered in Python, over
cards that checks/cards.py packs and builds. Without arguments the files are written; with `--check` they are compared, and a difference
is an error.

    crates/replay/stdin, stdout     a card with its size before it, 32 bits, little-endian, and a log of questions that it and other cards answered
"""
import struct

from cards import A, B, Refused, along, build, card, elements, hold, read, record, refuse_if, single

LARGEST_LOG, ENTRIES_AT, ENTRY = 65536, 5, struct.Struct('<4B4i4B4i2H')
G_TO_N, N_TO_G, N_TO_C, C_TO_N, G_TO_C, C_TO_G = range(6)
STAR, MISSING = 1, 2
CERTAIN, UNCERTAIN, UNMARKED = 1, 2, 3


# ---- a transcript, as a card makes it

class Segment:
    """A letter with its starts and ends on both sides, and the exons that a genome place of it counts to, left and right, and a transcript place."""

    def __init__(self, letter, count, genome, transcript, left, right, upstream):
        self.letter, self.left, self.right, self.upstream = letter, left, right, upstream
        steps = along(letter, count)
        self.genome, self.transcript = (genome, genome + steps[0]), (transcript, transcript + steps[1])


class Transcript:
    def __init__(self, data):
        self.strand, start, end, records = read(data)
        _, self.genome, self.length = build(self.strand, start, end, records)
        self.cds = None if start is None else (start, end)
        self.first, self.segments = records[0][0], []
        numbers = range(1, len(records) + 1)[::self.strand]
        for i, this in enumerate(records):
            if i:
                left, right = numbers[i - 1], numbers[i]
                self.append('N', this[0] - records[i - 1][1], left, right, min(left, right))
            for letter, count in elements(this[5], 0)[::self.strand]:
                self.append(letter, count, numbers[i], numbers[i], numbers[i])

    def append(self, letter, count, *exons):
        last = self.segments[-1] if self.segments else None
        starts = (last.genome[1], last.transcript[1]) if last else (0, 0)
        self.segments.append(Segment(letter, count, *starts, *exons))


# ---- numbers with owners

def n_of_place(place):
    return place + 1 if place >= 0 else place


def place_of_n(number):
    return number - 1 if number >= 1 else number


def c_of_n(number, cds):
    """A c. number, and whether it has a star."""
    start, end = cds
    if number <= start:
        return number - start - (number > 0), 0
    return (number - start, 0) if number <= end else (number - end, 1)


def n_of_c(number, star, cds):
    sum_ = number + cds[1] if star else number + cds[0] + (number < 0)
    return sum_ if sum_ > 0 else sum_ - 1


def fits(*numbers):
    refuse_if(any(not -2**31 <= number < 2**31 for number in numbers), 17)


# ---- finding and mapping a place

def found(transcript, side, place):
    """The first segment whose end is above the place, or the last."""
    return next((s for s in transcript.segments if getattr(s, side)[1] > place), transcript.segments[-1])


def to_transcript(transcript, place, is_start):
    """The transcript place and offset of a genome place, its exon, and whether it is certain."""
    segment = found(transcript, 'genome', place)
    (start, end), to = segment.genome, segment.transcript[0]
    if segment.letter in '=MX':
        return to + place - start, 0, segment.left, True
    if segment.letter in 'ID':
        return to - is_start, 0, segment.left, False
    left, right = place - start + 1, end - place
    if left < right or left == right and transcript.strand == 1:
        return to - 1, left, segment.left, True
    return to, -right, segment.right, True


def to_genome(transcript, place, is_start):
    """The genome place of a transcript place, its exon, and whether it is certain."""
    segment = found(transcript, 'transcript', place)
    (start, end), to = segment.transcript, segment.genome[0]
    if segment.letter in '=MX':
        return to + place - start, segment.upstream, True
    if segment.letter in 'ID':
        return to - is_start, segment.upstream, False
    return (to - 1 if place - start + 1 <= end - place else to), segment.upstream, True


def marked(certain):
    return CERTAIN if certain else UNCERTAIN


# ---- the six mappings: a mark, and two ends of base, offset, star and exon

def g_to_n(t, strict, ends):
    refuse_if(any(end is None for end in ends), 19)
    places = [end - 1 - t.first for end in ends]
    refuse_if(strict and any(not 0 <= place < t.genome for place in places), 14)
    spots = [to_transcript(t, place, i == 0) for i, place in enumerate(places)]
    if t.strand == -1:
        spots = [(t.length - 1 - place, -offset, exon, certain) for place, offset, exon, certain in spots[::-1]]
    answer = [(n_of_place(place), offset, 0, exon) for place, offset, exon, _ in spots]
    for base, offset, _, _ in answer:
        fits(base, offset)
    return marked(all(certain for *_, certain in spots)), answer


def n_to_g(t, strict, ends):
    spots = [(place_of_n(base), offset) for base, offset in ends]
    if t.strand == -1:
        spots = [(t.length - 1 - place, -offset) for place, offset in spots[::-1]]
    refuse_if(strict and any(not 0 <= place < t.length for place, _ in spots), 14)
    mapped = [to_genome(t, place, i == 0) for i, (place, _) in enumerate(spots)]
    answer = [(place + t.first + 1 + offset, 0, 0, exon) for (place, exon, _), (_, offset) in zip(mapped, spots)]
    fits(*(base for base, *_ in answer))
    return marked(all(certain for *_, certain in mapped)), answer


def n_to_c(t, strict, ends):
    refuse_if(t.cds is None, 13)
    refuse_if(strict and any(not 0 < base <= t.length for base, _ in ends), 15)
    answer = []
    for base, offset in ends:
        number, star = c_of_n(base, t.cds)
        fits(number, offset)
        answer.append((number, offset, star, 0))
    return UNMARKED, answer


def c_to_n(t, strict, ends):
    refuse_if(t.cds is None, 13)
    answer = []
    for base, star, offset in ends:
        number = n_of_c(base, star, t.cds)
        refuse_if(strict and not 0 < number <= t.length, 16)
        fits(number, offset)
        answer.append((number, offset, 0, 0))
    return UNMARKED, answer


def with_exons(answer, exons):
    return [(base, offset, star, exon) for (base, offset, star, _), (_, _, _, exon) in zip(answer, exons)]


def g_to_c(t, strict, ends):
    mark, n = g_to_n(t, strict, ends)
    _, c = n_to_c(t, strict, [(base, offset) for base, offset, _, _ in n])
    return mark, with_exons(c, n)


def c_to_g(t, strict, ends):
    _, n = c_to_n(t, strict, ends)
    return n_to_g(t, strict, [(base, offset) for base, offset, _, _ in n])


MAPPINGS = (g_to_n, n_to_g, n_to_c, c_to_n, g_to_c, c_to_g)


# ---- an entry: a question as its numbers, and the answer as its numbers

def ask(transcript, question):
    """Tag, refusal, two stars, two numbers with their offsets, two exons."""
    kind, strict, start_marks, end_marks, start, start_offset, end, end_offset = question
    ends = ((start, start_offset, start_marks), (end, end_offset, end_marks))
    if kind in (G_TO_N, G_TO_C):
        ends = [None if marks & MISSING else base for base, _, marks in ends]
    elif kind in (N_TO_G, N_TO_C):
        ends = [(base, offset) for base, offset, _ in ends]
    else:
        ends = [(base, marks & STAR, offset) for base, offset, marks in ends]
    try:
        mark, ((a, o, s, e), (b, u, r, f)) = MAPPINGS[kind](transcript, strict, ends)
    except Refused as refusal:
        return (0, refusal.args[0]) + 8 * (0,)
    return mark, 0, s, r, a, o, b, u, e, f


def log(entries):
    return b'QLG' + struct.pack('<H', 1) + b''.join(ENTRY.pack(*question, *answer) for question, answer in entries)


REFUSALS = {
    G_TO_N: (14, 17, 18, 19, 23),
    N_TO_G: (14, 17, 18, 23),
    N_TO_C: (13, 15, 17, 23),
    C_TO_N: (13, 16, 17, 23),
    G_TO_C: (13, 14, 15, 17, 18, 19, 23),
    C_TO_G: (13, 16, 17, 18, 23),
}


def is_canonical(question, answer):
    kind, strict, start_marks, end_marks, start, start_offset, end, end_offset = question
    tag, refusal, start_star, end_star, *numbers, start_exon, end_exon = answer
    if kind > 5 or strict > 1 or max(start_marks, end_marks) > 3 or max(start_star, end_star) > 1 or tag > 3:
        return False
    for marks, base, offset in ((start_marks, start, start_offset), (end_marks, end, end_offset)):
        if marks & STAR and kind not in (C_TO_N, C_TO_G) or marks & MISSING and (kind not in (G_TO_N, G_TO_C) or base):
            return False
        if offset and kind in (G_TO_N, G_TO_C):
            return False
    if tag == 0:
        return refusal in REFUSALS[kind] and not any((start_star, end_star, *numbers, start_exon, end_exon))
    plain = kind in (N_TO_C, C_TO_N)
    if refusal or plain != (tag == UNMARKED) or (plain and (start_exon or end_exon)) or not plain and not (start_exon and end_exon):
        return False
    if (start_star or end_star) and kind not in (N_TO_C, G_TO_C):
        return False
    return not (kind in (N_TO_G, C_TO_G) and (numbers[1] or numbers[3]))


def read_log(data):
    """The questions of a log with their answers."""
    refuse_if(len(data) > LARGEST_LOG, 3)
    refuse_if(data[:5] != b'QLG\1\0' or (len(data) - ENTRIES_AT) % ENTRY.size, 35)
    entries = [(e[:8], e[8:]) for e in ENTRY.iter_unpack(data[ENTRIES_AT:])]
    refuse_if(not all(is_canonical(*e) for e in entries), 35)
    return entries


# ---- the replay

def replay(data, entries):
    """What the program writes of a card's bytes and a log's."""
    try:
        transcript = Transcript(data)
        differing = [i for i, (question, answer) in enumerate(read_log(entries)) if ask(transcript, question) != answer]
    except Refused as refusal:
        return 'refused %d\n' % refusal.args[0]
    return ''.join('%d\n' % number for number in differing + [len(differing)])


# ---- document 01's table of places

def g(start, end, kind=G_TO_N, strict=1):
    return kind, strict, 0, 0, start, 0, end, 0


def said(data, question):
    """Certainty or refusal, and the two ends with stars."""
    tag, refusal, s, r, a, o, b, u, _, _ = ask(Transcript(data), question)
    return ('refused', refusal) if tag == 0 else (tag, (a, o, s), (b, u, r))


def check_places():
    one = lambda base, offset=0, star=0: (CERTAIN, (base, offset, star), (base, offset, star))
    c = lambda place, strict=1: g(place, place, G_TO_C, strict)
    rows = [
        (A, g(11, 11), one(1)), (A, c(11), one(-3)), (A, c(13), one(-1)), (A, c(14), one(1)), (A, c(21), one(7, 1)), (A, c(23), one(7, 3)),
        (A, c(24), one(8, -2)), (A, c(33), one(3, 0, 1)), (A, g(34, 34), ('refused', 14)), (A, g(35, 35), ('refused', 14)), (A, g(10, 10), ('refused', 14)),
        (A, g(10, 10, strict=0), one(-1)), (A, c(10, 0), one(-4)), (B, g(33, 33), one(1)), (B, g(23, 23), one(8, 3)), (B, c(23), one(5, 3)),
        (single(b'4M2I4M', at=100), g(105, 105), (UNCERTAIN, (4, 0, 0), (5, 0, 0))),
        (single(b'4M2D4M', at=100), (N_TO_G, 1, 0, 0, 5, 0, 5, 0), (UNCERTAIN, (104, 0, 0), (105, 0, 0))),
        (single(b'4M2D4M', at=100), g(105, 105), one(7)),
        (B, g(11, 33), (CERTAIN, (1, 0, 0), (18, 0, 0))), (B, g(22, 33), (CERTAIN, (1, 0, 0), (9, -2, 0))),
        (B, (N_TO_G, 1, 0, 0, 1, 0, 18, 0), (CERTAIN, (11, 0, 0), (33, 0, 0))),
    ]
    for data, question, answer in rows:
        assert said(data, question) == answer, (question, answer, said(data, question))


# ---- the card, and the log of it and of others

def three(cds, last=b'6M2D4M', middle=b'4M2I3M', gap=40, extra=()):
    """Three records on strand -1, so that the first is the transcript's last, and others before them in the transcript."""
    start, end = cds or (None, None)
    at = 20 + gap
    records = [record(10, 20, 17, 27, 2, last), record(at, at + 9, 8, 17, 1, middle), record(at + 30, at + 38, 0, 8, 0, b'3M2N3M'), *extra]
    return card(1, start, end, records)


CARD = three((4, 19))
OTHERS = [
    CARD,
    # the CDS ends elsewhere; there is none; an I is matched; a D is matched elsewhere; an intron is longer; an exon more upstream
    three((4, 16)),
    three(None),
    three((4, 19), middle=b'9M'),
    three((4, 19), last=b'10M', middle=b'9M'),
    three((4, 19), gap=43),
    three((9, 24), extra=(record(110, 115, 0, 0, -1, b'5M'),)),
]

# in the first record, its end, an intron's halves and middle, an I, the N of a record, the ends, and past them
PLACES = (11, 20, 21, 39, 40, 41, 60, 65, 66, 67, 68, 94, 95, 98, 99, 10, 2147483647)
NUMBERS = ((1, 0), (3, 2), (4, -1), (6, 0), (7, 5), (13, -20), (14, 0), (19, 0), (20, 0), (21, 0), (25, 0), (26, 0), (0, 0), (-1, 3), (2147483647, -2147483648))
C_NUMBERS = ((-4, 0, 0), (-1, 0, 1), (1, 0, 0), (3, 0, -7), (9, 0, 4), (10, 0, 0), (15, 0, 0), (16, 0, 0), (1, 1, 0), (6, 1, 0), (7, 1, 0), (2147483647, 1, 0))


def pairs(ends, strict):
    """Each end alone where it is asked strictly, and otherwise with the next."""
    return zip(ends, ends if strict else ends[1:])


def questions():
    for strict in (1, 0):
        for kind in (G_TO_N, G_TO_C):
            for a, b in pairs(PLACES, strict):
                yield kind, strict, 0, 0, a, 0, b, 0
            yield kind, strict, MISSING, 0, 0, 0, 20, 0
            yield kind, strict, 0, MISSING, 20, 0, 0, 0
        for kind in (N_TO_G, N_TO_C):
            for (a, o), (b, u) in pairs(NUMBERS, strict):
                yield kind, strict, 0, 0, a, o, b, u
        for kind in (C_TO_N, C_TO_G):
            for (a, s, o), (b, r, u) in pairs(C_NUMBERS, strict):
                yield kind, strict, s, r, a, o, b, u


def recorded(data):
    """Every question as a card answers it."""
    transcript = Transcript(data)
    return [(question, ask(transcript, question)) for question in questions()]


def check_differences(entries, differing):
    """A base, an offset, a star, the certainty and the exons each differ alone somewhere, an answer stands against a refusal both ways, and
    every refusal of a built transcript is there."""
    now = Transcript(CARD)
    told = [(entries[i][1], ask(now, entries[i][0])) for i in differing]
    for fields in ((0,), (4, 6), (5, 7), (2, 3, 4, 6), (8, 9)):
        assert any(all((a[k] == b[k]) != (k in fields) for k in range(10)) for a, b in told), fields
    assert {(a[0] == 0, b[0] == 0) for a, b in told} >= {(True, False), (False, True)}
    assert {answer[1] for _, answer in entries} == {0, 13, 14, 15, 16, 17, 19}


ENTRIES = [entry for data in OTHERS for entry in recorded(data)]
LOG = log(ENTRIES)
FILES = {
    'replay/stdin': struct.pack('<I', len(CARD)) + CARD + LOG,
    'replay/stdout': replay(CARD, LOG).encode(),
}


def main():
    check_places()
    *differing, total = map(int, replay(CARD, LOG).split())
    assert read_log(LOG) == ENTRIES and total == len(differing)
    check_differences(ENTRIES, differing)
    assert all(replay(data, log(recorded(data))) == '0\n' for data in OTHERS)
    hold(FILES, 'checks/logs.py')


if __name__ == '__main__':
    main()
