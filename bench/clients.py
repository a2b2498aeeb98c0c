#!/usr/bin/env python3
"""Measures the built program's server beside a peer's in one run, over connections on loopback.

usage: bench/clients.py PEER [--clients N] [--updates N] [--runs R]

PEER is a program with the mode `serve --at ADDRESS`, and with `--share` besides where it makes a breadcrumb's bytes once. Each
server in turn gets a feed of so many updates (100,000) once N clients (64) have their first crumb end. Told are deliveries a
second (a delivery is one breadcrumb of 100 updates at one client) and the server's processor microseconds for each, medians of
R runs (3), and then the same for N clients that come at once and get a map of 20,000 keys: seconds until the last one has it.
The last lines are the ratios, of which those of one run count: other work on the machine moves all figures alike.
"""
import argparse
import concurrent.futures
import os
import selectors
import statistics
import subprocess
import sys
import threading
import time

from program import PROGRAM, check_built, dial, free_port, hello

LIMIT = 120
BATCH = 100
KEYS = 20_000
TAIL = 256
PIECE = 1 << 20
TICKS = os.sysconf('SC_CLK_TCK')


def feed_of(updates, keys):
    lines = ['{"key":"/calico/v1/config/k%d","value":"%s"}\n' % (i % keys, ('%08d' % i).ljust(170, 'x')) for i in range(updates)]
    return ''.join(lines).encode()


def seconds_of(pid):
    with open('/proc/%d/stat' % pid) as stat:
        fields = stat.read().rsplit(')', 1)[1].split()
    return (int(fields[11]) + int(fields[12])) / TICKS


class Reader:
    """Connections that say hello, of which all that comes is read, and no ping is answered."""

    def __init__(self, port, count):
        self.selector = selectors.DefaultSelector()
        self.tails = {}
        self.room = memoryview(bytearray(PIECE))
        for _ in range(count):
            sock = dial(port)
            sock.sendall(hello('reader'))
            sock.setblocking(False)
            self.tails[sock] = b''
            self.selector.register(sock, selectors.EVENT_READ)

    def read(self, sock):
        """Keeps the last bytes of what has come. A ping at most stands behind the last crumb end."""
        count = sock.recv_into(self.room)
        if not count:
            sys.exit('a server closed a connection')
        last = bytes(self.room[max(0, count - TAIL):count])
        self.tails[sock] = (self.tails[sock] + last)[-TAIL:]
        return self.tails[sock]

    def until(self, end):
        """Reads until each has this crumb end, the last that comes."""
        left = {sock for sock, tail in self.tails.items() if end not in tail}
        limit = time.monotonic() + LIMIT
        while left:
            if time.monotonic() > limit:
                sys.exit('no %s at %d clients within %d s' % (end, len(left), LIMIT))
            for key, _ in self.selector.select(1):
                if end in self.read(key.fileobj):
                    left.discard(key.fileobj)

    def close(self):
        self.selector.close()
        for sock in self.tails:
            sock.close()


class Readers:
    """So many connections, in two threads where there are more than one."""

    def __init__(self, port, count):
        shares = [count // 2, count - count // 2] if count > 1 else [count]
        self.readers = [Reader(port, share) for share in shares]

    def until(self, number):
        """Reads until each has the end of this breadcrumb, the last that was published."""
        end = b'{"m":"crumb","n":%d}' % number
        with concurrent.futures.ThreadPoolExecutor(len(self.readers)) as threads:
            list(threads.map(lambda reader: reader.until(end), self.readers))

    def close(self):
        for reader in self.readers:
            reader.close()


class Server:
    def __init__(self, command):
        self.port = free_port()
        at = '127.0.0.1:%d' % self.port
        self.process = subprocess.Popen([word.replace('ADDRESS', at) for word in command], stdin=subprocess.PIPE,
                                        stdout=subprocess.DEVNULL, stderr=subprocess.DEVNULL)

    def feed(self, lines):
        def write():
            self.process.stdin.write(lines)
            self.process.stdin.flush()
        self.writer = threading.Thread(target=write, daemon=True)
        self.writer.start()

    def used(self):
        return seconds_of(self.process.pid)

    def end(self):
        self.process.kill()
        self.process.wait()


def fan_out(command, clients, updates):
    """Deliveries a second, and the server's microseconds for each."""
    server = Server(command)
    try:
        readers = Readers(server.port, clients)
        readers.until(0)
        before, begin = server.used(), time.monotonic()
        server.feed(feed_of(updates, 10_000))
        readers.until(updates // BATCH)
        wall = time.monotonic() - begin
        used = server.used() - before
        readers.close()
    finally:
        server.end()
    deliveries = clients * (updates // BATCH)
    return deliveries / wall, used / deliveries * 1e6


def join(command, clients):
    """Seconds until clients that come at once have the map, and the server's processor seconds."""
    server = Server(command)
    try:
        server.feed(feed_of(KEYS, KEYS))
        # When a first client has the whole map, the feed is read. The one that served it is free again soon.
        first = Readers(server.port, 1)
        first.until(KEYS // BATCH)
        first.close()
        time.sleep(1.5)
        before, begin = server.used(), time.monotonic()
        readers = Readers(server.port, clients)
        readers.until(KEYS // BATCH)
        wall = time.monotonic() - begin
        used = server.used() - before
        readers.close()
    finally:
        server.end()
    return wall, used


def medians(rows):
    return [statistics.median(column) for column in zip(*rows)]


def tell(clients, fans, joins):
    for name in fans:
        rate, each = medians(fans[name])
        wall, used = medians(joins[name])
        print('%-18s %9.0f deliveries/s  %7.1f us each   %d join in %6.2f s, %6.2f s of the processor'
              % (name, rate, each, clients, wall, used))


def tell_ratios(fans, joins):
    """Each run's figures beside the peers' of the same run, and then the medians of these ratios."""
    peer, once, ours = 'peer', 'peer, bytes once', 'typha'
    def ratio(rows, column, other):
        return statistics.median(own[column] / its[column] for own, its in zip(rows[ours], rows[other]))
    print('deliveries a second: %.2f times the peer\'s, %.2f times those of bytes once' % (ratio(fans, 0, peer), ratio(fans, 0, once)))
    print('processor time a delivery: %.2f times the peer\'s, %.2f times that of bytes once' % (ratio(fans, 1, peer), ratio(fans, 1, once)))
    print('a map of %d keys to all at once: %.2f times the peer\'s rate, with %.2f times its processor time'
          % (KEYS, 1 / ratio(joins, 0, peer), ratio(joins, 1, peer)))


def main():
    words = argparse.ArgumentParser()
    words.add_argument('peer')
    words.add_argument('--clients', type=int, default=64)
    words.add_argument('--updates', type=int, default=100_000)
    words.add_argument('--runs', type=int, default=3)
    words = words.parse_args()
    check_built()
    servers = {
        'peer': [words.peer, 'serve', '--at', 'ADDRESS'],
        'peer, bytes once': [words.peer, 'serve', '--at', 'ADDRESS', '--share'],
        'typha': [PROGRAM, 'serve', '--at', 'ADDRESS', '--workers', '64'],
    }
    fans = {name: [] for name in servers}
    joins = {name: [] for name in servers}
    for _ in range(words.runs):
        for name, command in servers.items():
            fans[name].append(fan_out(command, words.clients, words.updates))
            joins[name].append(join(command, words.clients))
    tell(words.clients, fans, joins)
    tell_ratios(fans, joins)


main()
