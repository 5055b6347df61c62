#!/usr/bin/python3
"""Flush, FUA and 64 requests in flight, by libnbd.

    libnbd_test.py URI     tries the served disk at this URI; it overwrites the volume

It needs Debian's python3-libnbd, and so Debian's own Python. It ends with status 1 where something is wrong.
"""
import os
import random
import sys

import nbd

BLOCK = 4096


def want(holds, what):
    """Ends the script with what was wanted, unless it holds."""
    if not holds:
        raise SystemExit(f"libnbd_test.py: {what}")


def connected(uri):
    """A session."""
    client = nbd.NBD()
    client.connect_uri(uri)
    return client


def try_flush_and_fua(client):
    """A write with FUA, and one that is flushed."""
    want(client.can_flush() and client.can_fua(), "FLUSH or FUA isn't offered")
    want(client.can_multi_conn() and not client.is_read_only(), "several sessions or writes aren't offered")
    block = os.urandom(BLOCK)
    client.pwrite(block, 2 * BLOCK, nbd.CMD_FLAG_FUA)
    want(client.pread(BLOCK, 2 * BLOCK) == block, "a write with FUA isn't read back")
    client.pwrite(block, 3 * BLOCK)
    client.flush()
    want(client.pread(BLOCK, 3 * BLOCK) == block, "a write that was flushed isn't read back")


def wait_for(client, cookies):
    """Waits until all of these requests are answered."""
    while client.aio_in_flight() > 0:
        want(client.poll(20000) >= 1, "no reply within 20 seconds")
    want(all(client.aio_command_completed(cookie) for cookie in cookies), "a request has no reply")


def try_many(client):
    """64 writes in flight, then 64 reads."""
    data = [os.urandom(BLOCK) for _ in range(64)]
    cookies = [client.aio_pwrite(nbd.Buffer.from_bytearray(bytearray(data[n])), n * BLOCK) for n in range(64)]
    print(client.aio_in_flight(), "writes in flight")
    wait_for(client, cookies)
    buffers = [nbd.Buffer(BLOCK) for _ in range(64)]
    wait_for(client, [client.aio_pread(buffers[n], n * BLOCK) for n in range(64)])
    for n in range(64):
        want(bytes(buffers[n].to_bytearray()) == data[n], f"block {n} isn't read back")


def try_random(clients, draw):
    """Rounds of 64 requests of any offset and size in two sessions, none over another's place, against a copy of ours."""
    length = min(clients[0].get_size(), 4 << 20)
    most = min(65536, length // 64)
    copy = bytearray(length)
    for at in range(0, length, most):
        clients[0].pwrite(copy[at : at + most], at)
    clients[0].flush()
    for _ in range(40):
        # One place a request: a part of the volume's 64ths, so that what is in flight together never meets.
        width = length // 64
        reads, cookies = [], [[] for _ in clients]
        for n in range(64):
            start = n * width + draw.randrange(width)
            size = draw.randint(1, min(most, (n + 1) * width - start))
            which = draw.randrange(len(clients))
            client = clients[which]
            kind = draw.random()
            if kind < 0.4:
                buffer = nbd.Buffer(size)
                cookies[which].append(client.aio_pread(buffer, start))
                reads.append((start, size, buffer))
            elif kind < 0.5:
                cookies[which].append(client.aio_flush())
            else:
                data = draw.randbytes(size)
                copy[start : start + size] = data
                flags = nbd.CMD_FLAG_FUA if kind > 0.8 else 0
                cookies[which].append(client.aio_pwrite(nbd.Buffer.from_bytearray(bytearray(data)), start, flags=flags))
        for client, asked in zip(clients, cookies):
            wait_for(client, asked)
        for start, size, buffer in reads:
            want(buffer.to_bytearray() == copy[start : start + size], f"{size} bytes at {start} aren't what was written")
    there = b"".join(clients[-1].pread(most, at) for at in range(0, length, most))
    want(there == copy, "the volume isn't what was written")


def try_refusals(uri):
    """A request that libnbd would hold back by itself: it is refused, and the session goes on."""
    client = connected(uri)
    client.set_strict_mode(0)
    try:
        client.pread(BLOCK, client.get_size() - 1)
        want(False, "a READ past the end is answered")
    except nbd.Error as error:
        want(error.errno == "EINVAL", f"a READ past the end is refused with {error.errno}")
    client.pread(BLOCK, 0)
    client.shutdown()


def main(uri):
    """All of it, against the disk at this URI."""
    clients = [connected(uri), connected(uri)]
    try_flush_and_fua(clients[0])
    try_many(clients[0])
    try_random(clients, random.Random(1))
    for client in clients:
        client.shutdown()
    try_refusals(uri)
    print("FUA, flush, 64 in flight, 2,560 requests of any size: read back")


if __name__ == "__main__":
    if len(sys.argv) != 2:
        raise SystemExit(__doc__)
    try:
        main(sys.argv[1])
    except nbd.Error as failed:
        raise SystemExit(f"libnbd_test.py: {failed}") from None
