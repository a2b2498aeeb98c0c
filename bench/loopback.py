#!/usr/bin/env python3
"""Serves a feed on loopback to clients of every kind, and compares what the honest ones rebuild with `stream | follow`.

usage: bench/loopback.py [--updates N] [--clients N]

The server is the built program with 64 workers, over a feed of N updates (100,000 if not said) that is written in parts while
clients come. So many clients (40) are the program's own, which come one after another; of them two are killed. Beside them
come eight connections that close in mid-frame, eight that say hello and then neither read nor answer, and eight that say
nothing. Before, a client finds no server, and a second server finds its port taken. It ends within some 90 seconds, ends
only what it started, and uses 127.0.0.1 alone. The last line is 'N equal, M differ', and the status tells whether all is well.
"""
import argparse
import random
import socket
import subprocess
import sys
import threading
import time

from program import LIMIT, PROGRAM, Client, check_built, free_port, hello, rebuilt

KEYS = 200
PARTS = 50


def feed_lines(updates):
    draw = random.Random(1)
    yield '{"status":"resync"}\n'
    for i in range(updates):
        key = '/calico/v1/config/k%d' % draw.randrange(KEYS)
        value = 'null' if draw.random() < 0.05 else '"v%d"' % i
        yield '{"key":"%s","value":%s}\n' % (key, value)
    yield '{"status":"in-sync"}\n'


def rude(port, kind):
    """A connection that closes in mid-frame, or one that stays and is silent, before its hello or behind it."""
    sock = socket.create_connection(('127.0.0.1', port), 5)
    if kind != 'silent':
        sock.sendall(hello('rude'))
    if kind == 'closing':
        sock.recv(50)
        sock.close()
        return None
    return sock


def check(good, told):
    if not good:
        print('NOT AS EXPECTED: ' + told)
    return good


def before_the_server(port):
    status, note, _ = Client(port).ended()
    return check(status == 7 and note == b'typha: door fault\n', 'a client without a server')


def beside_the_server(port):
    second = subprocess.run([PROGRAM, 'serve', '--at', '127.0.0.1:%d' % port], stdin=subprocess.DEVNULL,
                            stderr=subprocess.PIPE, timeout=LIMIT)
    return check(second.returncode == 7 and second.stderr == b'typha: door fault\n', 'a second server on a port')


def visit(port, clients, server, feed):
    """Writes the feed in parts while clients come. Gives the honest clients and what is to be closed."""
    honest, killed, rest = [], [], []
    size = len(feed) // PARTS + 1
    for part in range(PARTS):
        server.stdin.write(feed[part * size:(part + 1) * size])
        server.stdin.flush()
        while len(honest) + len(killed) < clients * (part + 1) // PARTS:
            (killed if len(killed) < 2 and part > 5 else honest).append(Client(port))
        if part < 24:
            held = rude(port, ('closing', 'deaf', 'silent')[part % 3])
            rest += [held] if held else []
        time.sleep(0.05)
    for client in killed:
        client.kill()
    return honest, rest


def main():
    words = argparse.ArgumentParser()
    words.add_argument('--updates', type=int, default=100_000)
    words.add_argument('--clients', type=int, default=40)
    words = words.parse_args()
    check_built()
    feed = ''.join(feed_lines(words.updates)).encode()
    want = rebuilt(feed)
    port = free_port()
    good = before_the_server(port)
    server = subprocess.Popen([PROGRAM, 'serve', '--at', '127.0.0.1:%d' % port, '--workers', '64'],
                              stdin=subprocess.PIPE, stderr=subprocess.PIPE)
    alarm = threading.Timer(LIMIT, server.kill)
    alarm.start()
    time.sleep(0.5)
    good &= beside_the_server(port)
    honest, rest = visit(port, words.clients, server, feed)
    server.stdin.close()
    told = [client.ended() for client in honest]
    for sock in rest:
        sock.close()
    status = server.wait()
    alarm.cancel()
    good &= check(status == 0, 'the server ended with %d: %s' % (status, server.stderr.read()))
    same = [(0, b'', want) == client for client in told]
    print('%d equal, %d differ' % (sum(same), len(same) - sum(same)))
    sys.exit(0 if good and all(same) else 1)


main()
