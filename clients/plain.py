#!/usr/bin/python3
"""A client of the Network Block Device protocol over a plain socket, and tests of a served disk.

    plain.py PORT            tries the server at this port of 127.0.0.1: the protocol's corners, many requests in
                             flight, many sessions. It overwrites the volume.
    plain.py --kill PORT TIMES SEED MEMBERS SERVE ..
                             a load of writes and zeros, with FUA and without, FLUSHes and READs against the server that
                             the words SERVE start at this port, of a chain of so many members, at each of which are clients;
                             it is killed in the middle, TIMES times, and served again from one member's disk, which is drawn by
                             chance, with the files of the others taken away; then these come back, and are rebuilt.
                             All that is owed must be there, and the volume is what a prefix of the committed writes left.

It needs Python 3.9 or later, and history.py beside it. It ends with status 1 and one line where something is wrong.
"""
import contextlib
import errno
import os
import random
import re
import select
import signal
import socket
import struct
import subprocess
import sys
import tempfile
import time

from history import WORD, Era, Wrong, filled, numbers_in

BLOCK = 4096
READ, WRITE, DISC, FLUSH, ZERO = 0, 1, 2, 3, 6
FUA, NO_HOLE, FAST_ZERO = 1, 2, 16
# HAS_FLAGS, SEND_FLUSH, SEND_FUA, SEND_WRITE_ZEROES, CAN_MULTI_CONN.
OFFERED = 0x014D
EXPORT_NAME, ABORT, LIST, STARTTLS, INFO, GO, STRUCTURED = 1, 2, 3, 5, 6, 7, 8
ACK, SERVER, UNSUP, INVALID, UNKNOWN, TOO_BIG = 1, 2, 0x80000001, 0x80000003, 0x80000006, 0x80000009
# What one READ of a whole volume asks for at a time, where the server takes as much.
PIECE = 65536
# Bytes in a journal area: of a block that zeros have in part, and of one that they have whole.
IMAGE, MARK = 4100, 4


def want(holds, what):
    """Ends the script with what was wanted, unless it holds."""
    if not holds:
        raise Wrong(what)


def zeros_fit(offset, length, payload):
    """Whether zeros fit into the least journal area that a disk with this largest payload has, and so into any."""
    end = offset + length
    touched = -(-end // BLOCK) - offset // BLOCK
    whole = max(0, end // BLOCK - -(-offset // BLOCK))
    return IMAGE * (touched - whole) + MARK * whole <= IMAGE * (payload // BLOCK + 1)


class Options:
    """A session while its options are negotiated."""

    def __init__(self, port):
        """Connects, and answers the greeting."""
        self.socket = socket.create_connection(("127.0.0.1", port), timeout=60)
        self.socket.setsockopt(socket.IPPROTO_TCP, socket.TCP_NODELAY, 1)
        magic, option, flags = struct.unpack(">8s8sH", self.take(18))
        want((magic, option) == (b"NBDMAGIC", b"IHAVEOPT"), f"the greeting is {magic} {option}")
        want(flags & 3 == 3, f"the handshake flags are {flags:#x}")
        self.socket.sendall(struct.pack(">I", 3))

    def take(self, length):
        """That many bytes that the server sends."""
        parts = []
        while length > 0:
            part = self.socket.recv(length)
            if not part:
                raise EOFError("the server hung up")
            parts.append(part)
            length -= len(part)
        return b"".join(parts)

    def ask_option(self, option, data=b""):
        """Sends an option, and gives its replies up to the one that ends them: kinds and data."""
        self.socket.sendall(b"IHAVEOPT" + struct.pack(">II", option, len(data)) + data)
        replies = []
        while True:
            magic, of, kind, length = struct.unpack(">QIII", self.take(20))
            want(magic == 0x3E889045565A9 and of == option, f"the reply to option {option} is of {of}, magic {magic:#x}")
            replies.append((kind, self.take(length)))
            if kind == ACK or kind & 0x80000000:
                return replies

    def is_over(self):
        """Whether the server has hung up, within ten seconds, with nothing more said."""
        self.socket.settimeout(10)
        try:
            return self.socket.recv(1) == b""
        except ConnectionResetError:
            return True

    def close(self):
        """Ends the session without a word."""
        self.socket.close()


class Client(Options):
    """A session at the default export."""

    def __init__(self, port):
        """Negotiates by GO, and asks for the block sizes."""
        super().__init__(port)
        self.most = PIECE
        for kind, body in self.ask_option(GO, struct.pack(">IHH", 0, 1, 3)):
            if kind == ACK:
                break
            want(kind == 3, f"GO is answered by {kind:#x}")
            if body[:2] == b"\0\0":
                _, self.size, self.flags = struct.unpack(">HQH", body)
            elif body[:2] == b"\0\3":
                self.most = struct.unpack(">HIII", body)[3]

    def ask(self, kind, cookie, offset=0, length=0, data=b"", flags=0):
        """Sends a request."""
        head = struct.pack(">IHHQQI", 0x25609513, flags, kind, cookie, offset, length or len(data))
        self.socket.sendall(head + data)

    def reply(self, lengths=None):
        """The next reply: its cookie, its error, and its data where it answers a READ of that length."""
        magic, error, cookie = struct.unpack(">IIQ", self.take(16))
        want(magic == 0x67446698, f"a reply's magic is {magic:#x}")
        length = (lengths or {}).get(cookie, 0)
        return cookie, error, self.take(length) if length and not error else b""

    def error_of(self, kind, offset=0, length=0, data=b"", flags=0):
        """The error that a request is answered with."""
        self.ask(kind, 77, offset, length, data, flags)
        cookie, error, _ = self.reply({77: length} if kind == READ else None)
        want(cookie == 77, f"a reply of {cookie} to request 77")
        return error

    def read(self, offset, length):
        """Bytes of the volume."""
        self.ask(READ, 1, offset, length)
        _, error, data = self.reply({1: length})
        want(error == 0, f"a READ of {length} bytes at {offset} is refused with {error}")
        return data

    def write(self, offset, data, flags=0):
        """Writes bytes, and waits for the reply."""
        error = self.error_of(WRITE, offset, data=data, flags=flags)
        want(error == 0, f"a WRITE of {len(data)} bytes at {offset} is refused with {error}")

    def zero(self, offset, length, flags=0):
        """Writes zeros, and waits for the reply."""
        error = self.error_of(ZERO, offset, length, flags=flags)
        want(error == 0, f"zeros of {length} bytes at {offset} are refused with {error}")

    def flush(self):
        """Asks for all that was answered to be durable, and waits for the reply."""
        error = self.error_of(FLUSH)
        want(error == 0, f"a FLUSH is refused with {error}")

    def read_all(self, length):
        """The first bytes of the volume, piece by piece."""
        piece = min(PIECE, self.most)
        return b"".join(self.read(at, min(piece, length - at)) for at in range(0, length, piece))

    def close(self):
        """Ends the session as the protocol wants it."""
        self.ask(DISC, 4)
        self.socket.close()


def try_options(port):
    """What is negotiated, and what is refused there."""
    session = Options(port)
    kinds = [kind for kind, _ in session.ask_option(LIST)]
    want(kinds == [SERVER, ACK], f"LIST is answered by {kinds}")
    for option in (STARTTLS, STRUCTURED, 99):
        kinds = [kind for kind, _ in session.ask_option(option)]
        want(kinds == [UNSUP], f"option {option} is answered by {kinds}")
    kinds = [kind for kind, _ in session.ask_option(INFO, struct.pack(">I", 5) + b"other" + struct.pack(">H", 0))]
    want(kinds == [UNKNOWN], f"INFO of another name is answered by {kinds}")
    kinds = [kind for kind, _ in session.ask_option(INFO, b"\0")]
    want(kinds == [INVALID], f"INFO of one byte is answered by {kinds}")
    kinds = [kind for kind, _ in session.ask_option(INFO, bytes(5000))]
    want(kinds == [TOO_BIG], f"INFO of 5,000 bytes is answered by {kinds}")
    kinds = [kind for kind, _ in session.ask_option(INFO, struct.pack(">IH", 0, 0))]
    want(kinds == [3, ACK], f"INFO is answered by {kinds}")
    want(session.ask_option(ABORT) == [(ACK, b"")], "ABORT isn't answered by ACK")
    want(session.is_over(), "the session goes on after ABORT")
    session.close()
    named = Options(port)
    named.socket.sendall(b"IHAVEOPT" + struct.pack(">II", EXPORT_NAME, 0))
    size, flags = struct.unpack(">QH", named.take(10))
    named.close()
    client = Client(port)
    want((size, flags) == (client.size, client.flags), "EXPORT_NAME and GO tell of two exports")
    want(flags == OFFERED, f"the transmission flags are {flags:#x}")
    client.close()
    print("options: what is there is negotiated, all else is refused")


def try_refusals(port):
    """Requests that are refused, and that the session and its volume go on."""
    client = Client(port)
    client.write(0, b"before.." * 512)
    want(client.error_of(READ, client.size - 3, 4) == errno.EINVAL, "a READ past the end isn't refused with EINVAL")
    want(client.error_of(WRITE, client.size - 3, data=b"1234") == errno.ENOSPC, "a WRITE past the end isn't ENOSPC")
    want(client.error_of(READ, (1 << 64) - 4096, 4096) == errno.EINVAL, "a READ at the last offset isn't EINVAL")
    want(client.error_of(READ, 0, client.most + 1) == errno.EINVAL, "a READ above the largest payload isn't EINVAL")
    want(client.error_of(READ, 0, 4096, flags=1 << 9) == errno.EINVAL, "a READ with an unknown flag isn't EINVAL")
    want(client.error_of(WRITE, 0, data=b"after..." * 512, flags=1 << 9) == errno.EINVAL, "an unknown flag isn't EINVAL")
    want(client.error_of(42) == errno.EINVAL, "an unknown request isn't refused with EINVAL")
    want(client.read(0, BLOCK) == b"before.." * 512, "a refused WRITE was done")
    client.ask(DISC, 4)
    want(client.is_over(), "the session goes on after DISC")
    client.socket.close()
    too_much = Client(port)
    too_much.ask(WRITE, 1, 0, length=too_much.most + 1)
    want(too_much.is_over(), "a WRITE above the largest payload doesn't end its session")
    too_much.socket.close()
    wrong = Client(port)
    wrong.socket.sendall(b"\x25\x60\x95\x14" + bytes(24))
    want(wrong.is_over(), "a wrong magic doesn't end its session")
    wrong.socket.close()
    half = Client(port)
    half.ask(WRITE, 1, 0, length=BLOCK, data=b"after..." * 511)
    half.socket.close()
    client = Client(port)
    want(client.read(0, BLOCK) == b"before.." * 512, "a WRITE that broke off was done")
    client.close()
    print("refusals: each with its error, and nothing of it was done")


def try_zeros(port):
    """Zeros over whole blocks and parts of them, with each flag, and what is refused and so isn't done."""
    client = Client(port)
    before = os.urandom(5 * BLOCK)
    ranges = [(0, 1), (5, 100), (BLOCK - 1, 2), (0, BLOCK), (BLOCK, 2 * BLOCK), (BLOCK, BLOCK + 1), (BLOCK - 1, BLOCK + 1)]
    ranges.append((3, 4 * BLOCK))
    for flags in (0, NO_HOLE, FUA, FUA | NO_HOLE):
        for offset, length in ranges:
            if not zeros_fit(offset, length, client.most):
                continue
            for at in range(0, len(before), BLOCK):
                client.write(at, before[at : at + BLOCK])
            # A READ goes out at once behind it, since no payload is taken.
            client.ask(ZERO, 1, offset, length, flags=flags)
            client.ask(READ, 2, 0, 1)
            replies = {client.reply({2: 1})[:2] for _ in range(2)}
            want(replies == {(1, 0), (2, 0)}, f"zeros and a READ behind them are answered with {replies}")
            there = before[:offset] + bytes(length) + before[offset + length :]
            what = f"zeros of {length} bytes at {offset} with the flags {flags}"
            want(client.read_all(len(before)) == there, f"{what} aren't read back, or not they alone")
    client.write(0, b"before.." * 512)
    client.write(client.size - BLOCK, b"the last" * 512)
    for flags in (1 << 2, FAST_ZERO, FUA | FAST_ZERO, 1 << 9, 1 << 15):
        want(client.error_of(ZERO, 0, BLOCK, flags=flags) == errno.EINVAL, f"zeros with the flags {flags:#x} aren't EINVAL")
    want(client.error_of(ZERO, client.size, BLOCK, flags=FAST_ZERO) == errno.EINVAL, "an unknown flag isn't tested first")
    want(client.error_of(READ, 0, BLOCK, flags=NO_HOLE) == errno.EINVAL, "a READ with NO_HOLE isn't EINVAL")
    want(client.error_of(WRITE, 0, data=bytes(BLOCK), flags=NO_HOLE) == errno.EINVAL, "a WRITE with NO_HOLE isn't EINVAL")
    beyond = [(client.size - 3, 4), (client.size, 1), (0, client.size + 1), (client.size + 1, 0), ((1 << 64) - BLOCK, BLOCK)]
    for offset, length in beyond:
        error = client.error_of(ZERO, offset, length, flags=FUA)
        want(error == errno.ENOSPC, f"zeros of {length} bytes at {offset}, past the end, are answered with {error}")
    for offset in (0, 5, client.size):
        for flags in (0, FUA, NO_HOLE):
            client.zero(offset, 0, flags)
    want(client.read(0, BLOCK) == b"before.." * 512, "zeros that were refused, or none, were written")
    want(client.read(client.size - BLOCK, BLOCK) == b"the last" * 512, "zeros past the end were written up to it")
    # All but two bytes: it is a matter of the journal area whether they fit.
    error = client.error_of(ZERO, 1, client.size - 2)
    fits = zeros_fit(1, client.size - 2, client.most)
    want(error in ((0,) if fits else (0, errno.EINVAL)), f"zeros over all but two bytes are answered with {error}")
    first, last = (b"before.." * 512, b"the last" * 512) if error else (b"b" + bytes(BLOCK - 1), bytes(BLOCK - 1) + b"t")
    want(client.read(0, BLOCK) == first, f"zeros over all but two bytes, with error {error}: the first block is another")
    want(client.read(client.size - BLOCK, BLOCK) == last, f"the last block is another, with error {error}")
    # More than a payload, of whole blocks; another session reads it.
    client.write(0, b"before.." * 512)
    length = min(client.size, 8 * client.most)
    client.zero(0, length)
    other = Client(port)
    want(other.read_all(length) == bytes(length), f"zeros of {length} bytes aren't read back by another session")
    other.close()
    client.close()
    print("zeros: of parts and of whole blocks, with each flag; refused ones change nothing")


def try_many_requests(port):
    """64 requests in flight, and more than a session keeps."""
    client = Client(port)
    data = os.urandom(3 * BLOCK + 17)
    client.write(5, data)
    want(client.read(5, len(data)) == data, "a WRITE over block borders isn't read back")
    client.flush()
    for count in (64, 300):
        for n in range(count):
            client.ask(WRITE, n, (n % 64) * BLOCK, data=filled(n + 1, 0, BLOCK // WORD), flags=FUA if n % 2 else 0)
        done = [client.reply() for _ in range(count)]
        want({cookie for cookie, _, _ in done} == set(range(count)), f"{count} WRITEs: some have no reply")
        want(all(error == 0 for _, error, _ in done), f"{count} WRITEs: some are refused")
        for n in range(count):
            client.ask(READ, n, (n % 64) * BLOCK, BLOCK)
        lengths = {n: BLOCK for n in range(count)}
        there = {}
        for _ in range(count):
            cookie, error, data = client.reply(lengths)
            want(error == 0, f"READ {cookie} of {count} is refused with {error}")
            there.setdefault(cookie % 64, set()).add(data)
        for block, values in there.items():
            # Writes of one session that were in flight together may be done in any order.
            lawful = [filled(n + 1, 0, BLOCK // WORD) for n in range(block, count, 64)]
            want(len(values) == 1 and values.pop() in lawful, f"{count} in flight: block {block} shows no write of it")
    client.close()
    print("64 and 300 requests sent at once: answered and read back")


def try_many_sessions(port):
    """Two clients at once, sixteen, and one that doesn't read its replies."""
    one, other = Client(port), Client(port)
    other.write(0, b"of other" * 512)
    want(one.read(0, BLOCK) == b"of other" * 512, "a client doesn't read what another wrote")
    one.write(0, b"of one.." * 512)
    want(other.read(0, BLOCK) == b"of one.." * 512, "a client doesn't read what another wrote")
    one.write(BLOCK, b"flushed." * 512)
    other.flush()
    many = [Client(port) for _ in range(16)]
    for turn in range(20):
        for n, client in enumerate(many):
            client.ask(WRITE, turn, n * BLOCK, data=struct.pack(">HH", n, turn) * (BLOCK // 4))
        for client in many:
            want(client.reply()[1] == 0, "one of sixteen clients is refused")
    for n, client in enumerate(many):
        want(many[n - 1].read(n * BLOCK, BLOCK) == struct.pack(">HH", n, 19) * (BLOCK // 4), "sixteen clients mix data up")
    # A full socket stops this one; the others go on.
    length = min(one.most, one.size)
    for n in range(48):
        one.ask(READ, n, 0, length)
    other.socket.settimeout(20)
    for n in range(50):
        other.write(n % 16 * BLOCK, bytes(BLOCK))
    for _ in range(48):
        want(one.reply({n: length for n in range(48)})[1] == 0, "a READ of a slow client is refused")
    for client in many + [one, other]:
        client.close()
    print("two and sixteen sessions at once, and a slow one beside a quick one")


# The kinds of requests of a load: the type and the flags of each.
KINDS = {
    "write": (WRITE, 0),
    "fua": (WRITE, FUA),
    "zero": (ZERO, 0),
    "fzero": (ZERO, FUA),
    "flush": (FLUSH, 0),
    "read": (READ, 0),
}
# Shares of these kinds, of which a load has one.
SHARES = (
    (8, 1, 0, 0, 1, 2),
    (8, 1, 4, 1, 1, 2),
    (4, 4, 2, 2, 1, 2),
    (1, 6, 1, 4, 0, 1),
    (2, 1, 3, 6, 1, 1),
    (12, 0, 8, 0, 1, 1),
    (30, 0, 10, 0, 0, 1),
)


class Lane:
    """A session of a load: what it asked, what it has yet to send, and what came."""

    def __init__(self, port):
        """Opens the session; from here on nothing of it waits."""
        self.client = Client(port)
        self.client.socket.setblocking(False)
        self.asked = {}
        self.out = bytearray()
        self.came = bytearray()
        self.is_spent = False

    def send(self):
        """Sends what the socket takes."""
        try:
            done = self.client.socket.send(self.out[: 1 << 18])
        except BlockingIOError:
            return
        del self.out[:done]

    def receive(self):
        """Takes what came; False where the session is over."""
        try:
            part = self.client.socket.recv(1 << 18)
        except BlockingIOError:
            return True
        except ConnectionResetError:
            return False
        self.came += part
        return part != b""


class Load:
    """A random load in several sessions, and what is known of it. One thread, so that its events have one order.

    Zeros are written with NO_HOLE and without, some by a WRITE of zeros. They are of whole blocks and of odd words, and may
    be longer than a payload; but they fit into any journal area, so that nothing is refused.
    """

    def __init__(self, port, words, most, era, draw, number, note):
        """`words`: how much of the volume; `most`: words of a request; `number`: of the first write. `note` is told each
        event before a write or FLUSH is sent, and after it was answered."""
        self.words, self.most, self.era, self.draw, self.number, self.note = words, most, era, draw, number, note
        self.now = 0
        self.lanes = [Lane(port) for _ in range(draw.choice((1, 2, 4)))]
        self.depth = draw.choice((1, 4, 16, 64))
        self.hot = draw.choice((words, min(words, 8 * BLOCK // WORD)))
        self.shares = draw.choice(SHARES)
        self.answers = {kind: 0 for kind in KINDS}
        # The errors that a request may be refused with. Nobody knows then whether a write was done; the session asks no more, and when it was
        # answered all, another comes in its place.
        self.port, self.may_refuse, self.refused = port, (), 0

    def place(self, most):
        """A random place, mostly small, often of whole blocks, sometimes as long as it may be."""
        block = BLOCK // WORD
        kind = self.draw.random()
        if kind < 0.4:
            length, step = self.draw.randint(1, block), 1
        elif kind < 0.7:
            length, step = block * self.draw.randint(1, 2), block
        elif kind < 0.9:
            length, step = self.draw.randint(1, 4 * block), 1
        else:
            length, step = self.draw.randint(1, most), 1
        length = min(length, most, self.hot)
        start = self.draw.randrange(0, self.hot - length + 1, step)
        return start, start + length

    def place_of_zeros(self):
        """A random place that fits into a journal area, mostly of whole blocks."""
        block = BLOCK // WORD
        while True:
            start, end = self.place(self.hot)
            if self.draw.random() < 0.6:
                start, end = start // block * block, -(-end // block) * block
            if zeros_fit(start * WORD, (end - start) * WORD, self.most * WORD):
                return start, end

    def ask(self, lane):
        """One more request of a session. It counts as sent from before its bytes go out."""
        kind = self.draw.choices(tuple(KINDS), self.shares)[0]
        code, flags = KINDS[kind]
        zeros = code == ZERO
        self.number += 1
        self.now += 1
        number = self.number
        start, end, data = 0, 0, b""
        if kind != "flush":
            start, end = self.place_of_zeros() if zeros else self.place(self.most)
        if zeros and end - start <= self.most and self.draw.random() < 0.2:
            code, data = WRITE, bytes((end - start) * WORD)
        elif zeros:
            flags |= self.draw.choice((0, NO_HOLE))
        elif code == WRITE:
            data = filled(number, start, end)
        if code in (WRITE, ZERO):
            self.era.sent(number, start, end, flags & FUA != 0, zeros, self.now)
        if kind != "read":
            self.note(kind, number, start, end)
        lane.asked[number] = (kind, start, end, self.now)
        lane.out += struct.pack(">IHHQQI", 0x25609513, flags, code, number, start * WORD, (end - start) * WORD) + data

    def take_replies(self, lane):
        """Takes the replies that are whole."""
        while len(lane.came) >= 16:
            magic, error, cookie = struct.unpack(">IIQ", lane.came[:16])
            want(magic == 0x67446698, f"a reply's magic is {magic:#x}")
            want(cookie in lane.asked, f"a reply to {cookie}, which isn't in flight")
            kind, start, end, sent = lane.asked[cookie]
            if error and error in self.may_refuse:
                del lane.came[:16], lane.asked[cookie]
                lane.is_spent = True
                self.refused += 1
                continue
            want(error == 0, f"{kind} {cookie} is refused with {error}")
            length = 16 + (end - start) * WORD * (kind == "read")
            if len(lane.came) < length:
                return
            data = bytes(lane.came[16:length])
            del lane.came[:length], lane.asked[cookie]
            self.now += 1
            self.answers[kind] += 1
            if kind == "read":
                self.era.judge_read(numbers_in(data, start), start, sent)
                continue
            self.note("answer", cookie, 0, 0)
            if kind == "flush":
                self.era.flushed(sent)
            else:
                self.era.answered(cookie, self.now)

    def renew(self):
        """A new session for each that was refused something, and waits for nothing."""
        for nth, lane in enumerate(self.lanes):
            if lane.is_spent and not lane.asked:
                lane.client.socket.close()
                self.lanes[nth] = Lane(self.port)

    def play(self, until):
        """Keeps every session full until that moment."""
        while time.monotonic() < until:
            self.renew()
            for lane in self.lanes:
                while not lane.is_spent and len(lane.asked) < self.depth:
                    self.ask(lane)
            sockets = {lane.client.socket: lane for lane in self.lanes}
            writing = [one for one, lane in sockets.items() if lane.out]
            readable, writable, _ = select.select(sockets, writing, [], max(0.0, until - time.monotonic()))
            for one in writable:
                sockets[one].send()
            for one in readable:
                want(sockets[one].receive(), "the server hung up under the load")
                self.take_replies(sockets[one])

    def end(self):
        """The server is gone: takes what still comes of each session."""
        for lane in self.lanes:
            lane.client.socket.settimeout(10)
            try:
                while lane.receive():
                    self.take_replies(lane)
            except TimeoutError:
                raise Wrong("a session goes on though the server was killed") from None
            lane.client.socket.close()


def start(words, environment=None, rebuilt=0, logged=None):
    """Starts the server: the process once it serves, and has rebuilt so many disks, and what it said."""
    # What it logs goes to a file, since a pipe that nobody empties would stop it.
    log = open(logged, "w+b") if logged else tempfile.TemporaryFile()
    server = subprocess.Popen(words, stdout=subprocess.PIPE, stderr=log, bufsize=0, env=environment)
    said = b""
    end = time.monotonic() + 60
    while time.monotonic() < end:
        ready, _, _ = select.select([server.stdout], [], [], 1)
        if not ready:
            continue
        part = os.read(server.stdout.fileno(), 4096)
        if not part:
            break
        said += part
        if re.search(rb"^serving .*\n", said, re.MULTILINE) and len(re.findall(rb"^rebuilt .*\n", said, re.MULTILINE)) >= rebuilt:
            return server, said.decode().splitlines()
    server.kill()
    status = server.wait()
    log.seek(0)
    raise Wrong(f"not served: it said {said!r}, on standard error {log.read()!r}, status {status}")


@contextlib.contextmanager
def one_disk(folder, draw):
    """All disks of a folder's members but one, drawn by chance, are away meanwhile."""
    slots = sorted(it for it in os.listdir(folder) if it.startswith("slot"))
    left = draw.choice(slots)
    away = [it for it in slots if it != left]
    with tempfile.TemporaryDirectory(dir=os.path.dirname(os.path.realpath(folder))) as aside:
        for it in away:
            os.rename(f"{folder}/{it}", f"{aside}/{it}")
        try:
            yield
        finally:
            for it in away:
                os.rename(f"{aside}/{it}", f"{folder}/{it}")


def stop(server):
    """The server is killed."""
    server.send_signal(signal.SIGKILL)
    server.wait()


def numbers_of(port, length):
    """The number of each word of the first bytes of what is served."""
    client = Client(port)
    numbers = numbers_in(client.read_all(length), 0)
    client.close()
    return numbers


def try_kills(port, times, seed, members, words):
    """The server is killed under a load, so many times."""
    draw = random.Random(seed)
    folder = words[words.index("serve") + 1]
    server, _ = start(words, rebuilt=members - 1)
    try:
        client = Client(port)
        length = min(client.size, 256 * BLOCK)
        most = min(client.most, length) // WORD
        for at in range(0, length, BLOCK):
            client.write(at, bytes(BLOCK))
        client.flush()
        client.close()
        base = [0] * (length // WORD)
        number = 0
        answers = {}
        slowest = 0.0
        for _ in range(times):
            load = Load(port, length // WORD, most, Era(base), draw, number, lambda *event: None)
            load.play(time.monotonic() + draw.uniform(0.02, 0.5))
            stop(server)
            load.end()
            number = load.number
            for kind, count in load.answers.items():
                answers[kind] = answers.get(kind, 0) + count
            begun = time.monotonic()
            with one_disk(folder, draw):
                server, _ = start(words)
                slowest = max(slowest, time.monotonic() - begun)
                base = numbers_of(port, length)
                load.era.judge(base)
                if members > 1:
                    stop(server)
            if members > 1:
                server, _ = start(words, rebuilt=members - 1)
                # Each session is at the next member.
                for _ in range(members):
                    want(numbers_of(port, length) == base, "another member shows another volume")
    finally:
        stop(server)
    counts = ", ".join(f"{count} {kind}" for kind, count in answers.items())
    print(f"killed {times} times, a chain of {members}, seed {seed}; answered: {counts}; served again within {slowest:.2f} s")


def main(words):
    """Tries what the words of the command line say."""
    if words[0] == "--kill":
        try_kills(int(words[1]), int(words[2]), int(words[3]), int(words[4]), words[5:])
        return
    port = int(words[0])
    try_options(port)
    try_refusals(port)
    try_zeros(port)
    try_many_requests(port)
    try_many_sessions(port)


if __name__ == "__main__":
    if len(sys.argv) < 2:
        raise SystemExit(__doc__)
    try:
        main(sys.argv[1:])
    except (Wrong, OSError, EOFError) as wrong:
        raise SystemExit(f"plain.py: {type(wrong).__name__}: {wrong}") from None
