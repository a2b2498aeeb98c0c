#!/usr/bin/env python3
"""Lets hostile peers at the built program's server over loopback, kind by kind, and shows that each is dropped by its rule.

usage: bench/hostile.py

64 connections of a kind take all 64 workers of a server, whose feed goes on meanwhile; then four of the program's own clients
come, which have to wait. Kinds that say no whole hello are dropped after 10 seconds, kinds that say what is no message in its
place at once. At a second server 32 connections answer no ping, and 32 read nothing either, which takes a minute: what they are
given fits into the system's buffers, since a write that waits for room may hold a worker for up to three minutes. The server tells
nothing of a connection, so each rule shows in when the connection is closed, and in that nothing is given to a peer that has said
no hello. A line tells of each kind how many were dropped and after how many seconds, how soon the clients had the map that
`stream | follow` makes of the feed so far, and the most memory that the server had. The longest bodies come twice. The status is 0
where all were dropped in time, every map was right, and memory stayed within its bound. It takes some 65 seconds.
"""
import subprocess
import sys
import threading
import time

from program import PROGRAM, Client, check_built, dial, frame, free_port, hello, last_map, memory_of, rebuilt

WORKERS = 64
HONEST = 4
ALARM = 145
BODY = 8_388_608
# Seconds: the limits for a hello and for a pong, and what a busy machine may add.
HELLO, PONG, LATE = 10, 60, 12
# The megabytes that the server may have more than at first: each worker's longest frame, for which room is doubled, or its queue.
# The system's allocator keeps some of it for the next time.
MOST = 17 * WORKERS
NO_JSON = [b'{"host":"', b'[', b' ']
WORDS = hello('hostile')


def wait_for_end(sock, given):
    """Reads until the peer has closed."""
    while piece := sock.recv(1 << 16):
        given.append(len(piece))


def say(*pieces):
    def act(sock, given):
        for piece in pieces:
            sock.sendall(piece)
        wait_for_end(sock, given)
    return act


def say_a_long_body(sock, given):
    """The most bytes of a body, and no JSON: a text without an end, lists in one another, or spaces."""
    front = NO_JSON[sock.fileno() % len(NO_JSON)]
    try:
        sock.sendall(BODY.to_bytes(4, 'big') + front + front[-1:] * (BODY - len(front)))
    except (BrokenPipeError, ConnectionResetError):
        raise TimeoutError('dropped before its last byte') from None
    wait_for_end(sock, given)


def say_slowly(sock, given):
    """A byte a second."""
    sock.settimeout(1)
    for at in range(len(WORDS)):
        sock.sendall(WORDS[at:at + 1])
        try:
            return wait_for_end(sock, given)
        except TimeoutError:
            pass


def read_nothing(sock, given):
    """What was given lies before the end, so the end shows only at the server: its side of the connection is open no more."""
    sock.sendall(WORDS)
    given.append(1)
    ours, theirs = ('0100007F:%04X' % sock.getsockname()[1]), ('0100007F:%04X' % sock.getpeername()[1])
    is_open = True
    while is_open:
        time.sleep(1)
        with open('/proc/net/tcp') as table:
            is_open = any(row.split()[1:4] == [theirs, ours, '01'] for row in table)


# What a connection says, after how many seconds at least and at most it is dropped, and whether it may be given anything.
KINDS = {
    'no byte': (say(), HELLO, HELLO + LATE, False),
    'half a hello': (say(WORDS[:len(WORDS) // 2]), HELLO, HELLO + LATE, False),
    'a byte a second': (say_slowly, HELLO, HELLO + LATE, False),
    'a length of 2^32 - 1': (say(b'\xff' * 4), 0, HELLO, False),
    'a body of 8 MB, no JSON': (say_a_long_body, 0, HELLO, False),
    'a pong for a hello': (say(frame(m='pong', ts=0)), 0, HELLO, False),
    'a hello of version 2': (say(frame(m='client_hello', version=2, host='hostile')), 0, HELLO, False),
    'two hellos': (say(WORDS, WORDS), 0, HELLO, True),
    'no pong': (say(WORDS), PONG, PONG + LATE, True),
    'nothing read': (read_nothing, PONG, PONG + LATE, True),
}


class Hostile(threading.Thread):
    """One connection: after how many seconds it was closed, and whether it was given anything."""

    def __init__(self, port, kind):
        super().__init__(daemon=True)
        self.kind, self.after, self.given = kind, None, []
        self.sock = dial(port)
        self.begin = time.monotonic()
        self.sock.settimeout(ALARM)
        self.start()

    def run(self):
        try:
            KINDS[self.kind][0](self.sock, self.given)
        except (BrokenPipeError, ConnectionResetError):
            pass
        except TimeoutError:
            return
        self.after = time.monotonic() - self.begin
        self.sock.close()

    def is_dropped(self):
        _, least, most, may_have = KINDS[self.kind]
        return self.after is not None and least <= self.after <= most and (may_have or not self.given)


class Server:
    def __init__(self):
        self.port = free_port()
        self.feed = b''
        self.process = subprocess.Popen([PROGRAM, 'serve', '--at', '127.0.0.1:%d' % self.port, '--workers', str(WORKERS)],
                                        stdin=subprocess.PIPE, stderr=subprocess.PIPE)
        dial(self.port).close()
        self.at_first = memory_of(self.process.pid, 'VmRSS')

    def write(self, part):
        self.feed += part
        self.process.stdin.write(part)
        self.process.stdin.flush()

    def forget_peak(self):
        with open('/proc/%d/clear_refs' % self.process.pid, 'w') as file:
            file.write('5')

    def memory(self, what):
        """Megabytes more than at first."""
        return memory_of(self.process.pid, what) - self.at_first

    def end(self):
        """Its status and its note, after its feed."""
        self.process.stdin.close()
        return self.process.wait(), self.process.stderr.read()


def part_of(number, keys, size):
    lines = ['{"key":"/calico/v1/config/k%d","value":"%s"}\n' % (i, ('%d.%d.' % (number, i)).ljust(size, 'x')) for i in range(keys)]
    return ''.join(lines).encode() + b'{"status":"in-sync"}\n'


def seconds_to(want, clients, limit):
    """After how many seconds all of these clients have this map. None where they don't have it in time."""
    begin = time.monotonic()
    while time.monotonic() - begin < limit:
        if all(last_map(client.text) == want for client in clients):
            return time.monotonic() - begin
        time.sleep(0.1)
    return None


def wave(server, kinds, part):
    """Connections of these kinds, so many each, and then clients that wait behind them. Whether all was as it should be."""
    time.sleep(0.5)
    server.forget_peak()
    hostile = [Hostile(server.port, kind) for kind, count in kinds.items() for _ in range(count)]
    time.sleep(0.5)
    server.write(part)
    clients = [Client(server.port) for _ in range(HONEST)]
    limit = max(KINDS[kind][2] for kind in kinds)
    had = seconds_to(rebuilt(server.feed), clients, limit)
    for connection in hostile:
        connection.join(limit)
    most = server.memory('VmHWM')
    good = had is not None and most <= MOST
    for kind in kinds:
        own = [connection for connection in hostile if connection.kind == kind]
        after = sorted(connection.after for connection in own if connection.after is not None) or [0]
        dropped = sum(connection.is_dropped() for connection in own)
        good &= dropped == len(own)
        print('%-24s %d of %d dropped as they should be, after %.1f to %.1f s; clients behind them had the map after %s; %.0f MB more at most'
              % (kind, dropped, len(own), after[0], after[-1], 'no time' if had is None else '%.1f s' % had, most), flush=True)
    for client in clients:
        client.kill()
    return good


def serve_waves(server, kinds, keys, size):
    """One wave after another, and then clients that follow the feed to its end."""
    good = all([wave(server, each, part_of(number, keys, size)) for number, each in enumerate(kinds)])
    clients = [Client(server.port) for _ in range(HONEST)]
    want = rebuilt(server.feed)
    good &= seconds_to(want, clients, LATE) is not None
    rest = server.memory('VmRSS')
    status = server.end()
    told = [client.ended() for client in clients]
    same = sum(client == (0, b'', want) for client in told)
    print('a server ended with %s, %d of %d clients with the whole map; %.0f MB more than at first' % (status, same, HONEST, rest))
    return good and status == (0, b'') and same == HONEST and rest <= MOST


def main():
    if len(sys.argv) > 1:
        sys.exit(__doc__)
    check_built()
    begin = time.monotonic()
    quick, slow = Server(), Server()
    alarm = threading.Timer(ALARM, lambda: [server.process.kill() for server in (quick, slow)])
    alarm.daemon = True
    alarm.start()
    result = []
    other = threading.Thread(target=lambda: result.append(
        serve_waves(slow, [{'no pong': WORKERS // 2, 'nothing read': WORKERS // 2}], 1000, 2000)), daemon=True)
    other.start()
    waves = [{kind: WORKERS} for kind, (_, _, most, _) in KINDS.items() if most < PONG]
    waves.append({'a body of 8 MB, no JSON': WORKERS})
    good = serve_waves(quick, waves, 200, 20)
    other.join()
    print('%s after %.0f s' % ('all is well' if good and result == [True] else 'NOT AS EXPECTED', time.monotonic() - begin))
    sys.exit(0 if good and result == [True] else 1)


main()
