"""What a volume may show after a stop, judged from what was sent to it and answered. For plain.py and powercut.

It needs nothing but Python 3. The volume is seen as words of 8 bytes. A write has a number that no other write has. It
fills each of its words with that number and the word's own place, or it writes zeros. So a word tells which write it is
of, but a zero doesn't: it is of any write of zeros that has this word, or was there before. Other bytes are garbage.

Time is the place in one list of events. A write whose answer stands before another's sending was committed before it.
That is all that a client can know of the order, and what `judge` goes by: the volume is what a prefix of the committed
writes left, so whatever shows one write shows all that were surely before it, and the whole of it.

This is decided exactly, also of zeros, and of writes that were under way at once and have words in common. A volume is
taken if some order of the writes, by that rule, has a prefix that holds all that is owed and leaves just this volume; no
other volume is taken. Not looked at is whether one order explains several READs, or a READ and what a stop leaves: each
is judged by itself. And zeros over zeros show nothing.
"""
from array import array
from bisect import bisect_left, bisect_right
from heapq import heappop, heappush
from itertools import groupby
from operator import gt

WORD = 8
PLACES = 1 << 28
NEVER = 1 << 62


class Wrong(Exception):
    """The volume shows what it may not."""


class Write:
    """A write of words, when it was sent, and when it was answered."""

    __slots__ = ("number", "start", "end", "fua", "shows", "sent", "answered")

    def __init__(self, number, start, end, fua, zeros, sent):
        """A write with this number of the words from `start` to before `end`."""
        self.number, self.start, self.end, self.fua, self.sent = number, start, end, fua, sent
        # The number that its words show.
        self.shows = 0 if zeros else number
        self.answered = NEVER

    def __str__(self):
        """How it is told in a failure."""
        answered = "never answered" if self.answered == NEVER else f"answered at {self.answered}"
        kind = ("FUA " if self.fua else "") + ("write" if self.shows else "zeros")
        return f"{kind} {self.number} of words {self.start} to {self.end}, sent at {self.sent}, {answered}"


def filled(number, start, end):
    """The bytes of a write."""
    return array("Q", range(number * PLACES + start, number * PLACES + end)).tobytes()


def numbers_in(data, first):
    """The number of the write that each word is of, where the first word's place is `first`; 0 where it is of zeros."""
    words = array("Q", data)
    numbers = [word // PLACES for word in words]
    for place, (word, number) in enumerate(zip(words, numbers), first):
        if word != 0 and (number == 0 or word % PLACES != place):
            raise Wrong(f"garbage at byte {place * WORD}: {word.to_bytes(8, 'little').hex()}")
    return numbers


class Era:
    """All that was sent since a volume was last known as a whole, and what was answered."""

    def __init__(self, base):
        """`base` has the number of each word."""
        self.base = base
        # Of each word, when the zeros that were there before were answered: 0, and -1 where there were none.
        self.blank = [-1 if number else 0 for number in base]
        # In the order in which they were sent; and those that were answered, in the order of their answers.
        self.writes = {}
        self.done = []
        self.owed_from = 0
        self.owed = set()

    def sent(self, number, start, end, fua, zeros, now):
        """A write was sent, of zeros or of its number."""
        self.writes[number] = Write(number, start, end, fua, zeros, now)

    def answered(self, number, now):
        """A write was answered. With FUA it is owed, and so are all that were answered before it was sent."""
        write = self.writes[number]
        write.answered = now
        self.done.append(write)
        if write.fua:
            self.owed.add(number)
            self.owed_from = max(self.owed_from, write.sent)

    def flushed(self, sent):
        """A FLUSH that was sent then was answered: every write that was answered before is owed."""
        self.owed_from = max(self.owed_from, sent)

    def judge(self, numbers):
        """Whether the whole volume may be this after a stop; raises Wrong where it may not."""
        self._judge(numbers, 0, self.owed_from, self.owed)

    def judge_read(self, numbers, first, sent):
        """Whether a READ that was sent then may show this from word `first` on; raises Wrong where it may not."""
        self._judge(numbers, first, sent, ())

    def _judge(self, numbers, first, answered_before, owed):
        """Whether these words may be what a prefix of the writes left that has these, and all answered before then."""
        look = Look(self, numbers, first, answered_before, owed)
        told = None
        for moment in look.moments():
            there = look.there_at(moment)
            latest = look.latest(there)
            stale = look.stale(there, latest)
            why = stale or look.disorder(there, moment)
            if why is None:
                return
            told = told or why
            # What is stale stays so, with more that is there.
            if stale:
                break
        raise Wrong(told)


class Look:
    """A look at words of a volume, and at the writes that have some of them."""

    def __init__(self, era, numbers, first, answered_before, owed):
        """`numbers` of the words from `first` on. They show no write where it wasn't; that is told first."""
        self.era, self.numbers, self.first, self.last, self.owed = era, numbers, first, first + len(numbers), owed
        self.runs = self._runs()
        self.shown = {number for _, _, number in self.runs if number in era.writes}
        # The writes that a prefix has, whichever it is; beside all that were answered before this moment.
        self.sure = self.shown.union(owed)
        self.least = max([answered_before] + [era.writes[number].sent for number in self.shown])
        self.near = self._near()

    def _near(self):
        """The writes that have some of the words, in the order of their sending.

        Those of which each word was surely replaced later aren't among them: they fit into any order of the others.
        """
        near = [write for write in self.era.writes.values() if write.answered == NEVER and self._has_some(write)]
        sent, cover = reversed(self.era.writes.values()), Cover()
        late = next(sent, None)
        for write in reversed(self.era.done):
            while late is not None and late.sent > write.answered:
                if self._has_some(late) and self._is_there(late, self.least):
                    cover.add(late.start, late.end)
                late = next(sent, None)
            if cover.has(self.first, self.last):
                break
            if self._has_some(write) and not cover.has(max(write.start, self.first), min(write.end, self.last)):
                near.append(write)
        return sorted(near, key=lambda write: write.sent)

    def _runs(self):
        """The runs of words of one number each: where they begin and end, and the number."""
        runs = []
        place = self.first
        for number, group in groupby(self.numbers):
            end = place + len(list(group))
            write = self.era.writes.get(number)
            if write is not None and write.shows == 0:
                raise Wrong(f"bytes {place * WORD} to {end * WORD} hold the number of {write}")
            if write is not None and not write.start <= place < end <= write.end:
                raise Wrong(f"bytes {place * WORD} to {end * WORD} hold words of {write}, which it doesn't cover")
            if write is None and number != 0 and self.era.base[place:end] != [number] * (end - place):
                raise Wrong(
                    f"bytes {place * WORD} to {end * WORD} hold write {number}, which is of before and not what was there"
                )
            runs.append((place, end, number))
            place = end
        return runs

    def _part(self, write):
        """Which of these words a write has."""
        return slice(max(write.start, self.first) - self.first, min(write.end, self.last) - self.first)

    def _has_some(self, write):
        """Whether a write has some of these words."""
        return write.start < self.last and write.end > self.first

    def _is_there(self, write, moment):
        """Whether a prefix has this write, whose last write was sent at that moment."""
        return write.answered < moment or write.number in self.sure

    def _had(self, number):
        """How what some words hold is told in a failure."""
        return str(self.era.writes.get(number, "what was there before")) if number else "zeros"

    def moments(self):
        """When the last write of a prefix may have been sent.

        With a write a prefix has all that were answered before it was sent. So this moment tells which it has, but for those
        that were under way. Of them it needs none but zeros, beside the sure ones: so the last is of zeros, or a sure one.
        """
        return [self.least] + [write.sent for write in self.near if write.shows == 0 and write.sent > self.least]

    def there_at(self, moment):
        """The writes that a prefix has whose last write was sent at that moment, but for zeros that were under way."""
        return [write for write in self.near if self._is_there(write, moment)]

    def latest(self, writes):
        """Of each word, when the last of these writes that has it was sent; 0 where none has."""
        latest = [0] * len(self.numbers)
        for write in writes:
            part = self._part(write)
            latest[part] = [write.sent] * (part.stop - part.start)
        return latest

    def stale(self, there, latest):
        """What holds something that one of these writes surely replaced; `None` where nothing does."""
        for start, end, number in self.runs:
            if number:
                known = self.era.writes[number].answered if number in self.era.writes else 0
                if max(latest[start - self.first : end - self.first]) > known:
                    return self._tell_stale(start, end, number, there, known)
        if any(number == 0 for _, _, number in self.runs):
            return self._stale_zeros(there)
        return None

    def _stale_zeros(self, there):
        """As `stale`, of zeros: they may be of any write of zeros that isn't surely before one that filled their words."""
        filled_at = self.latest([write for write in there if write.shows])
        zeros_until = self.era.blank[self.first : self.last]
        for write in sorted((write for write in self.near if write.shows == 0), key=lambda write: write.answered):
            part = self._part(write)
            zeros_until[part] = [write.answered] * (part.stop - part.start)
        for start, end, number in self.runs:
            part = slice(start - self.first, end - self.first)
            if number == 0 and any(map(gt, filled_at[part], zeros_until[part])):
                while filled_at[start - self.first] <= zeros_until[start - self.first]:
                    start += 1
                known = zeros_until[start - self.first]
                end = next((n for n in range(start, end) if filled_at[n - self.first] <= known), end)
                if filled_at[start - self.first] == 0:
                    return f"bytes {start * WORD} to {end * WORD} hold zeros, which nobody wrote there"
                return self._tell_stale(start, end, 0, there, known)
        return None

    def _tell_stale(self, start, end, number, there, known):
        """What is wrong with words that a later write should have replaced."""
        for other in there:
            if other.shows != number and other.sent > known and other.start < end and other.end > start:
                if other.number in self.shown:
                    why = "of which other words are there"
                elif other.number in self.owed:
                    why = "which is owed"
                else:
                    why = "which is owed, or before one that is there"
                had = self._had(number)
                return f"bytes {start * WORD} to {end * WORD} hold {had}; missing is {other}, {why}"
        raise AssertionError("stale words without a later write")

    def disorder(self, there, moment):
        """What no order of these writes explains, with any of the zeros that were under way then; `None` where all is."""
        zeros = [
            write
            for write in self.near
            if write.shows == 0 and write.sent <= moment and not self._is_there(write, moment)
        ]
        back = Back(self, there, zeros)
        back.take()
        for n in reversed(range(len(there))):
            if not back.is_back[n]:
                start, end, number = back.first_wait(n)
                return (
                    f"no order of the writes explains bytes {start * WORD} to {end * WORD}, which hold {self._had(number)},"
                    f" with {there[n]}"
                )
        for start, end, number in back.rest():
            if number == 0 and any(self.era.base[start:end]):
                of = [str(write) for write in self.near if write.shows == 0 and write.start < end and write.end > start]
                return (
                    f"no order of the writes explains bytes {start * WORD} to {end * WORD}, which hold zeros; the last that"
                    f" were sent there: {'; '.join(of[-3:])}"
                )
        return None


class Cover:
    """Words that are covered: the ranges of them, ascending, of which none touches another."""

    def __init__(self):
        """None yet."""
        self.starts, self.ends = [], []

    def add(self, start, end):
        """These words are covered, too."""
        low, high = bisect_left(self.ends, start), bisect_right(self.starts, end)
        if low < high:
            start, end = min(start, self.starts[low]), max(end, self.ends[high - 1])
        self.starts[low:high] = [start]
        self.ends[low:high] = [end]

    def has(self, start, end):
        """Whether all of these words are covered."""
        at = bisect_right(self.starts, start) - 1
        return at >= 0 and end <= self.ends[at]


class Back:
    """Writes that are taken back from what words show, the last one first.

    A write can be the last that is there if each of its words shows it, or was replaced by one that is back already; and
    if none that has still to be there was sent after its answer. Whatever is taken back makes others' words free, and so
    hinders none of them. Only zeros that were under way may be left out. They have to be where a write is taken back that
    was answered before they were sent; so the one that was answered last is taken first.
    """

    def __init__(self, look, there, zeros):
        """`there`: the writes that have to be taken back, in the order of their sending; `zeros`: those that may be."""
        self.writes, self.sure = there + zeros, len(there)
        parts = [(max(write.start, look.first), min(write.end, look.last)) for write in self.writes]
        self.edges = sorted({start for start, _, _ in look.runs}.union([look.last], *parts))
        # The words between two edges are one piece, of which a write has all or nothing.
        at = {place: piece for piece, place in enumerate(self.edges)}
        self.pieces = [range(at[start], at[end]) for start, end in parts]
        self.shows = [look.numbers[place - look.first] for place in self.edges[:-1]]
        self.is_free = bytearray(len(self.shows))
        self.waiting = [[] for _ in self.shows]
        self.fitting = []
        self.is_back = bytearray(len(self.writes))
        for n, pieces in enumerate(self.pieces):
            self._wait(n, pieces.start)

    def _wait(self, n, piece):
        """From this piece on, finds one that has to be free before write `n` is taken back; else it fits."""
        end, shows = self.pieces[n].stop, self.writes[n].shows
        while piece < end and (self.is_free[piece] or self.shows[piece] == shows):
            piece += 1
        if piece < end:
            self.waiting[piece].append(n)
        else:
            heappush(self.fitting, (-self.writes[n].answered, n))

    def take(self):
        """Takes back what can be."""
        left, earliest = list(range(self.sure)), NEVER
        while self.fitting:
            _, n = heappop(self.fitting)
            write = self.writes[n]
            if n >= self.sure and write.sent > earliest:
                continue
            while left and self.is_back[left[-1]]:
                left.pop()
            if left and self.writes[left[-1]].sent > write.answered:
                return
            earliest = min(earliest, write.answered)
            self.is_back[n] = 1
            for piece in self.pieces[n]:
                if not self.is_free[piece]:
                    self.is_free[piece] = 1
                    for other in self.waiting[piece]:
                        self._wait(other, piece + 1)

    def _piece(self, piece):
        """Where a piece begins and ends, and the number that it shows."""
        return self.edges[piece], self.edges[piece + 1], self.shows[piece]

    def first_wait(self, n):
        """The first piece for which write `n` waits; the last that isn't back has one."""
        shows = self.writes[n].shows
        return self._piece(next(it for it in self.pieces[n] if not self.is_free[it] and self.shows[it] != shows))

    def rest(self):
        """The pieces that no write that is back has."""
        return [self._piece(piece) for piece, is_free in enumerate(self.is_free) if not is_free]
