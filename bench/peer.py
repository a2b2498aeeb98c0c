#!/usr/bin/env python3
"""Measures the built program beside a peer that does the same work in the same formats, in one run.

usage: bench/peer.py PEER [--runs R] [--cluster FEED]

PEER is a program with the modes `stream` and `follow`. Both read the same feed in turn, R times (5 if not said); told are the
medians of processor seconds, the peer's divided by the program's (above 1: the program is faster), and peak memory. What both
write for a feed is compared first. FEED is a feed of a cluster, whose every rule the program checks.
"""
import argparse
import os
import random
import statistics
import subprocess
import tempfile

from program import PROGRAM, check_built

UPDATES = 300_000
VALUE_BYTES = 100
LETTERS = 'abcdefghijklmnopqrstuvwxyzABCDEFGHIJKLMNOPQRSTUVWXYZ0123456789 ._/-'


def write_feed(path, keys):
    """So many updates of so many keys, some of which delete and some of which change nothing."""
    draw = random.Random(keys)
    values = {}
    with open(path, 'w') as out:
        out.write('{"status":"resync"}\n')
        for i in range(UPDATES):
            key = 'k%d' % draw.randrange(keys)
            kind = draw.random()
            value = values.get(key)
            if kind < 0.05:
                value = None
            elif kind >= 0.1 or value is None:
                value = ''.join(draw.choices(LETTERS, k=VALUE_BYTES))
            values[key] = value
            told = 'null' if value is None else '"%s"' % value
            out.write('{"key":"/calico/v1/config/%s","value":%s}\n' % (key, told))
        out.write('{"status":"in-sync"}\n')


def run(command, feed, out):
    """Processor seconds and peak megabytes of one run, by /usr/bin/time."""
    with open(feed, 'rb') as source, tempfile.NamedTemporaryFile('r') as told:
        subprocess.run(['/usr/bin/time', '-q', '-f', '%U %S %M', '-o', told.name, *command], stdin=source, stdout=out, check=True)
        user, system, peak = told.read().split()
    return float(user) + float(system), int(peak) / 1024


def medians(commands, feed, runs):
    got = {name: [] for name in commands}
    with open(os.devnull, 'wb') as nothing:
        for _ in range(runs):
            for name, command in commands.items():
                got[name].append(run(command, feed, nothing))
    return {name: [statistics.median(column) for column in zip(*rows)] for name, rows in got.items()}


def compare(name, commands, feed, runs):
    """One line of the table."""
    told = medians(commands, feed, runs)
    (peer, peer_peak), (ours, our_peak) = told['peer'], told['typha']
    print('%-34s peer %7.2f s  typha %7.2f s  ratio %5.2f  peak %6.1f / %6.1f MB, %.2f'
          % (name, peer, ours, peer / ours, our_peak, peer_peak, our_peak / peer_peak), flush=True)
    return ours


def written(command, feed, path):
    with open(path, 'wb') as out:
        run(command, feed, out)


def is_same(one, other):
    return subprocess.run(['cmp', '-s', one, other]).returncode == 0


def main():
    words = argparse.ArgumentParser()
    words.add_argument('peer')
    words.add_argument('--runs', type=int, default=5)
    words.add_argument('--cluster')
    words = words.parse_args()
    check_built()
    stream = {'peer': [words.peer, 'stream'], 'typha': [PROGRAM, 'stream']}
    follow = {'peer': [words.peer, 'follow'], 'typha': [PROGRAM, 'follow', '--brief']}
    with tempfile.TemporaryDirectory() as work:
        path = lambda name: os.path.join(work, name)
        feeds = [('stream, 10,000 keys', path('small'), 10_000), ('stream, 1,000,000 keys', path('large'), 1_000_000)]
        for _, feed, keys in feeds:
            write_feed(feed, keys)
        feeds = [(name, feed) for name, feed, _ in feeds]
        if words.cluster:
            feeds.append(('stream, a cluster', words.cluster))
        seconds = []
        for name, feed in feeds:
            written(stream['typha'], feed, path('ours'))
            written(stream['peer'], feed, path('theirs'))
            if not is_same(path('ours'), path('theirs')):
                print('%s: the two write different frames' % name)
            if not seconds:
                os.replace(path('ours'), path('frames'))
            seconds.append(compare(name, stream, feed, words.runs))
        compare('follow --brief, frames of the first', follow, path('frames'), words.runs)
        print('an update of 1,000,000 keys takes %.2f times one of 10,000' % (seconds[1] / seconds[0]))


main()
