#!/usr/bin/env python3
"""Refuses the built program one request after another, and shows that each run ends as the reference says.

usage: bench/refused.py

Each request for memory is refused in turn in runs of `stream`, `follow`, `follow --brief` and `sim` over the examples: such a run
ends with status 5 and a front of what it writes else, or with all of it. Then, once the request is refused, each later one too.
Each read and each write fails in turn, in pieces of 48 bytes: status 3 with the frames of the breadcrumbs whose batches had
closed, or status 4 with what was taken before. Then come a full disk, a folder to read, and pipes whose reader leaves. Memory is
refused to a chain that a follower holds, by the measuring program of crates/ty_bench. Of a server with a client on loopback requests
for memory all over its run are refused: it ends with status 5, or its client gets all; and its accepts, takes and gives in turn: a
door is lost (status 7), or the client loses its connection. What the client prints are maps of the feed, their numbers rising. The
status is 0 where no run ended otherwise. It takes a minute or two, and wants a C compiler (`cc`): the refusals are made by a library
that is loaded before the system's.
"""
import collections
import concurrent.futures
import contextlib
import os
import subprocess
import sys
import tempfile
import time

from program import PROGRAM, TOP, Client, check_built, free_port, rebuilt

PIECE = 48
SERVED = 60
MOST_LINKS = 30
LOST = 0, 7, 9, 10
LIMIT = 30
AT_ONCE = 4
MEASURE = os.path.join(TOP, 'crates/ty_bench/out/ty_bench')
OUT_OF_MEMORY = b'typha: out of memory\n'

# REFUSE is a kind of call, a number from 1, and `+` where each later one is refused too. COUNTS is a file for how often each kind
# was called, PIECE the most bytes of a read or a write of the standard streams.
LIBRARY = r'''
#define _GNU_SOURCE
#include <errno.h>
#include <fcntl.h>
#include <stdatomic.h>
#include <stdio.h>
#include <stdlib.h>
#include <string.h>
#include <sys/socket.h>
#include <sys/syscall.h>
#include <unistd.h>

void *__libc_malloc(size_t), *__libc_calloc(size_t, size_t), *__libc_realloc(void *, size_t), *__libc_memalign(size_t, size_t);

enum { MEMORY, READ, WRITE, ACCEPT, TAKE, GIVE, KINDS };
static const char *name[KINDS] = {"memory", "read", "write", "accept", "take", "give"};
static atomic_long called[KINDS];
static int kind = KINDS, and_later, begun;
static long number;
static size_t piece = (size_t)-1;

__attribute__((constructor)) static void begin(void) {
    const char *refuse = getenv("REFUSE"), *most = getenv("PIECE");
    for (int i = 0; refuse && i < KINDS; i++)
        if (!strncmp(refuse, name[i], strlen(name[i]))) { kind = i; number = atol(refuse + strlen(name[i]) + 1); }
    and_later = refuse && strchr(refuse, '+');
    if (most) piece = atol(most);
    begun = 1;
}
void _exit(int status) {
    const char *path = getenv("COUNTS");
    begun = 0;
    int file = path ? open(path, O_WRONLY | O_CREAT | O_TRUNC, 0600) : -1;
    for (int i = 0; file >= 0 && i < KINDS; i++) dprintf(file, "%ld ", called[i]);
    for (;;) syscall(SYS_exit_group, status);
}
static int is_refused(int it) {
    if (!begun) return 0;
    long at = ++called[it];
    return it == kind && (at == number || (and_later && at > number));
}
static void *none(void) { errno = ENOMEM; return 0; }
void *malloc(size_t n) { return is_refused(MEMORY) ? none() : __libc_malloc(n); }
void *calloc(size_t n, size_t size) { return is_refused(MEMORY) ? none() : __libc_calloc(n, size); }
void *realloc(void *p, size_t n) { return is_refused(MEMORY) ? none() : __libc_realloc(p, n); }
void *aligned_alloc(size_t to, size_t n) { return is_refused(MEMORY) ? none() : __libc_memalign(to, n); }
ssize_t read(int file, void *p, size_t n) {
    if (file) return syscall(SYS_read, file, p, n);
    if (is_refused(READ)) { errno = EIO; return -1; }
    return syscall(SYS_read, file, p, n < piece ? n : piece);
}
ssize_t write(int file, const void *p, size_t n) {
    if (file != 1) return syscall(SYS_write, file, p, n);
    if (is_refused(WRITE)) { errno = ENOSPC; return -1; }
    return syscall(SYS_write, file, p, n < piece ? n : piece);
}
int accept4(int file, struct sockaddr *from, socklen_t *n, int flags) {
    if (is_refused(ACCEPT)) { errno = EMFILE; return -1; }
    return syscall(SYS_accept4, file, from, n, flags);
}
int accept(int file, struct sockaddr *from, socklen_t *n) { return accept4(file, from, n, 0); }
ssize_t recv(int file, void *p, size_t n, int flags) {
    if (is_refused(TAKE)) { errno = ECONNRESET; return -1; }
    return syscall(SYS_recvfrom, file, p, n, flags, 0, 0);
}
ssize_t send(int file, const void *p, size_t n, int flags) {
    if (is_refused(GIVE)) { errno = ECONNRESET; return -1; }
    return syscall(SYS_sendto, file, p, n, flags, 0, 0);
}
'''


def made(work):
    """The library, built."""
    source, library = os.path.join(work, 'refuse.c'), os.path.join(work, 'refuse.so')
    with open(source, 'w') as text:
        text.write(LIBRARY)
    subprocess.run(['cc', '-O1', '-shared', '-fPIC', '-o', library, source], check=True)
    return library


def example(name):
    with open(os.path.join(TOP, 'examples', name), 'rb') as text:
        return text.read()


def output_of(words, data):
    return subprocess.run([PROGRAM, *words], input=data, stdout=subprocess.PIPE, check=True, timeout=LIMIT).stdout


class Runs:
    """Runs under the library, and how they ended."""

    def __init__(self, library, work):
        self.library, self.work = library, work
        self.pool = concurrent.futures.ThreadPoolExecutor(AT_ONCE)
        self.tried, self.wrong = 0, 0

    def environment(self, refuse, **more):
        return dict(os.environ, LD_PRELOAD=self.library, REFUSE=refuse, **more)

    def run(self, words, data, refuse='', program=PROGRAM, **more):
        try:
            ran = subprocess.run([program, *words], input=data, env=self.environment(refuse, **more), capture_output=True, timeout=LIMIT)
        except subprocess.TimeoutExpired:
            return 'no end', b'', b''
        return ran.returncode, ran.stdout, ran.stderr

    def read(self, path):
        """How often each kind of call was made."""
        with open(path) as text:
            return [int(count) for count in text.read().split()]

    def counts(self, words, data, **more):
        path = os.path.join(self.work, 'counts')
        self.run(words, data, COUNTS=path, **more)
        return self.read(path)

    def judge(self, name, ends):
        """Counts ends by what they are called. One that begins with a capital isn't right."""
        told = collections.Counter(ends)
        self.tried += sum(told.values())
        self.wrong += sum(count for end, count in told.items() if end[0].isupper())
        print('%s: %d refused in turn: %s' % (name, sum(told.values()), ', '.join('%d %s' % (n, end) for end, n in told.most_common())), flush=True)

    def each(self, name, numbers, end_of):
        self.judge(name, self.pool.map(end_of, numbers))


def end_of_memory(told, whole):
    status, out, note = told
    if (status, note) == (5, OUT_OF_MEMORY) and whole.startswith(out):
        return 'ended with status 5 and a front'
    if (status, out, note) == (0, whole, b''):
        return 'with all bytes'
    return 'WITH STATUS %s, %r, %s' % (status, note, 'a front' if whole.startswith(out) else 'OTHER BYTES')


def refuse_memory(runs, words, data):
    whole = output_of(words, data)
    name = ' '.join(words)
    count = runs.counts(words, data)[0]
    for later, told in ('', ''), ('+', ', and each later one'):
        runs.each('%s, memory%s' % (name, told), range(1, count + 1),
                  lambda number: end_of_memory(runs.run(words, data, 'memory %d%s' % (number, later)), whole))


def end_of_chain(told, whole):
    status, out, note = told
    if (status, note) == (0, b'') and out in (whole, b'out of memory\n'):
        return 'ended with all breadcrumbs' if out == whole else "ended with a call's own answer"
    if (status, out, note) == (1, b'', b'Error: Kind(OutOfMemory)\n'):
        return 'before its words were read'
    return 'WITH STATUS %s, %r, %r' % (status, out, note)


def refuse_chain(runs):
    """A chain of three breadcrumbs with a follower that holds them, and one with a follower in a thread of its own."""
    for words in (['hold', '3', '1'], ['chain', '3', '1']):
        _, whole, _ = runs.run(words, b'', program=MEASURE)
        count = runs.counts(words, b'', program=MEASURE)[0]
        for later, told in ('', ''), ('+', ', and each later one'):
            runs.each('a chain by `%s`, memory%s' % (' '.join(words), told), range(1, count + 1),
                      lambda number: end_of_chain(runs.run(words, b'', 'memory %d%s' % (number, later), program=MEASURE), whole))


def streamed(front):
    """What `stream` says of a front of the feed: of the lines up to the last that closes a batch. None has 100 updates."""
    lines = front.split(b'\n')[:-1]
    while lines and b'"key"' in lines[-1]:
        lines.pop()
    return output_of(['stream'], b''.join(line + b'\n' for line in lines))


def followed(front):
    """What `follow` says of a front of the frames."""
    return subprocess.run([PROGRAM, 'follow'], input=front, capture_output=True, timeout=LIMIT).stdout


def reported(front):
    """What `sim` says of a front of the script: of its whole lines, but neither of a batch that they leave open nor of the end."""
    lines = front.split(b'\n')[:-1]
    while lines and b'"key"' in lines[-1]:
        lines.pop()
    report = output_of(['sim'], b''.join(line + b'\n' for line in lines))
    return report[:report.rindex(b'end ')]


def fail_devices(runs, words, data, front_of):
    """Each read and each write fails, the streams in pieces."""
    whole, name = output_of(words, data), ' '.join(words)
    reads, writes = runs.counts(words, data, PIECE=str(PIECE))[1:3]

    def end_of_read(number):
        status, out, note = runs.run(words, data, 'read %d' % number, PIECE=str(PIECE))
        if (status, note) == (3, b'typha: read fault\n') and out == front_of(data[:PIECE * (number - 1)]):
            return 'ended with status 3 and what the bytes before it say'
        return 'WITH STATUS %s, %r, %r' % (status, note, out[-60:])

    def end_of_write(number):
        status, out, note = runs.run(words, data, 'write %d' % number, PIECE=str(PIECE))
        if (status, note) == (4, b'typha: write fault\n') and whole.startswith(out):
            return 'ended with status 4 and a front'
        return 'WITH STATUS %s, %r, %r' % (status, note, out[-60:])

    runs.each('%s, reads' % name, range(1, reads + 1), end_of_read)
    runs.each('%s, writes' % name, range(1, writes + 1), end_of_write)


def end_at_pipe(words, data, whole, count):
    """A reader takes so many bytes and leaves."""
    with tempfile.TemporaryFile() as source:
        source.write(data)
        source.seek(0)
        process = subprocess.Popen([PROGRAM, *words], stdin=source, stdout=subprocess.PIPE, stderr=subprocess.PIPE, bufsize=0, pipesize=4096)
        out = b''
        while len(out) < count and (piece := process.stdout.read(count - len(out))):
            out += piece
        process.stdout.close()
        note = process.stderr.read()
        status = process.wait(LIMIT)
    if (status, note) == (4, b'typha: write fault\n') and whole.startswith(out):
        return 'ended with status 4 and a front'
    if (status, note) == (0, b'') and out == whole:
        return 'with all bytes'
    return 'WITH STATUS %s, %r' % (status, note)


def end_at_device(words, source, sink, wanted):
    ran = subprocess.run([PROGRAM, *words], stdin=source, stdout=sink, stderr=subprocess.PIPE, timeout=LIMIT)
    if (ran.returncode, ran.stderr) == wanted:
        return 'ended with status %d' % wanted[0]
    return 'WITH STATUS %s, %r' % (ran.returncode, ran.stderr)


def meet_devices(runs, feed, frames, script):
    """A full disk, a folder to read, and pipes whose reader leaves."""
    modes = [(['stream'], feed), (['follow'], frames), (['sim'], script)]
    ends = []
    for words, data in modes:
        with tempfile.TemporaryFile() as source, open('/dev/full', 'wb') as full:
            source.write(data)
            source.seek(0)
            ends.append(end_at_device(words, source, full, (4, b'typha: write fault\n')))
        folder = os.open(TOP, os.O_RDONLY)
        ends.append(end_at_device(words, folder, subprocess.DEVNULL, (3, b'typha: read fault\n')))
        os.close(folder)
    ends.append(end_at_device(['load'], subprocess.DEVNULL, open('/dev/full', 'wb'), (4, b'typha: write fault\n')))
    runs.judge('a full disk, a folder to read', ends)
    large = subprocess.run([os.path.join(TOP, 'examples/cluster-feed'), '20', '1', '100'], stdout=subprocess.PIPE, check=True).stdout
    whole = output_of(['stream'], large)
    counts = [0, 1, 4, 100, 4096, len(whole) // 2, len(whole) - 9000, len(whole)]
    runs.judge('a pipe whose reader leaves', [end_at_pipe(['stream'], large, whole, count) for count in counts])


def blocks_of(text):
    """The maps that a client has printed: what stands from one `at` to the next."""
    return [b'at ' + block for block in (b'\n' + text).split(b'\nat ')[1:]]


def number_of(block):
    return int(block.split()[1])


def is_told(text, worlds):
    """Whether these are maps of the feed, whose numbers rise, and a front of one at most behind them."""
    blocks = [block.rstrip(b'\n') for block in blocks_of(text)]
    *whole, last = blocks or [b'']
    if not all(worlds.get(number_of(block)) == block for block in whole):
        return False
    numbers = [number_of(block) for block in whole]
    return numbers == sorted(set(numbers)) and any(world.startswith(last) for world in worlds.values())


def reached(client, server):
    """Whether a client has printed a map before it ended, or before the server did."""
    limit = time.monotonic() + 2
    while time.monotonic() < limit and client.process.poll() is None and server.poll() is None:
        if os.fstat(client.text.fileno()).st_size:
            return True
        time.sleep(0.02)
    return False


def give(server, part):
    """Writes a part of the feed to a server, which may have ended."""
    with contextlib.suppress(BrokenPipeError):
        server.stdin.write(part)
        server.stdin.flush()


def serve_refused(runs, refuse, feed, **more):
    """A server that is refused something, and a client that dials until one connection stood. What both came to."""
    half = feed.index(b'\n\n') + 2
    port = free_port()
    server = subprocess.Popen([PROGRAM, 'serve', '--at', '127.0.0.1:%d' % port, '--workers', '2'], stdin=subprocess.PIPE,
                              stderr=subprocess.PIPE, env=runs.environment(refuse, **more))
    limit = time.monotonic() + 3
    give(server, feed[:half])
    client = Client(port)
    while not reached(client, server) and client.process.poll() == 7 and server.poll() is None and time.monotonic() < limit:
        time.sleep(0.02)
        client = Client(port)
    give(server, feed[half:])
    with contextlib.suppress(BrokenPipeError):
        server.stdin.close()
    try:
        status = server.wait(LIMIT)
        ended, note, last = client.ended()
    except subprocess.TimeoutExpired:
        server.kill()
        client.kill()
        return 'no end', b'', None, b'', b'', b''
    text = os.pread(client.text.fileno(), 1 << 24, 0)
    return status, server.stderr.read(), ended, note, last, text


def end_of_server(told, worlds, want):
    status, server_note, ended, note, last, text = told
    if status != 'no end' and is_told(text, worlds):
        if (status, server_note) == (5, OUT_OF_MEMORY):
            return 'ended with status 5' + (', the client with all' if (ended, last) == (0, want) else ', the client with a front')
        if (status, server_note) == (0, b'') and (ended, last) == (0, want):
            return 'with status 0, and the client with all'
        if (status, server_note, ended, text) == (7, b'typha: door fault\n', 7, b''):
            return 'with status 7, since the address was not bound'
    return 'WITH STATUS %s, %r, client %s, %r, %r' % (status, server_note, ended, note, last[-60:])


def end_of_link(told, worlds, want):
    """A server may have lost a door, and a client its connection."""
    status, server_note, ended, note, last, text = told
    if (status, server_note) in ((0, b''), (7, b'typha: door fault\n')) and is_told(text, worlds):
        if (ended, last) == (0, want):
            return 'ended with status %d, the client with all' % status
        if ended in LOST:
            return 'with status %d, the client with a front and status %d' % (status, ended)
    return 'WITH STATUS %s, %r, client %s, %r, %r' % (status, server_note, ended, note, last[-60:])


def refuse_server(runs, feed):
    worlds = {number_of(block): block.rstrip(b'\n') for block in blocks_of(output_of(['follow'], output_of(['stream'], feed)))}
    want = rebuilt(feed)
    path = os.path.join(runs.work, 'served')
    serve_refused(runs, '', feed, COUNTS=path)
    memory, _, _, *links = runs.read(path)
    for later, told in ('', ''), ('+', ', and each later one'):
        numbers = sorted({1 + at * memory // SERVED for at in range(SERVED)})
        runs.each('serve, memory, of some %d requests%s' % (memory, told), numbers,
                  lambda number: end_of_server(serve_refused(runs, 'memory %d%s' % (number, later), feed), worlds, want))
    for kind, count in zip(('accept', 'take', 'give'), links):
        runs.each('serve, %ss' % kind, range(1, min(count, MOST_LINKS) + 1),
                  lambda number: end_of_link(serve_refused(runs, '%s %d' % (kind, number), feed), worlds, want))


def main():
    if len(sys.argv) > 1:
        sys.exit(__doc__)
    check_built()
    if not os.access(MEASURE, os.X_OK):
        sys.exit('build the measuring program first: cd crates/ty_bench && rt run')
    begin = time.monotonic()
    feed, script = example('cluster.jsonl'), example('rejoin.script')
    frames = output_of(['stream'], feed)
    with tempfile.TemporaryDirectory() as work:
        runs = Runs(made(work), work)
        for words, data in (['stream'], feed), (['follow'], frames), (['follow', '--brief'], frames), (['sim'], script):
            refuse_memory(runs, words, data)
        fail_devices(runs, ['stream'], feed, streamed)
        fail_devices(runs, ['follow'], frames, followed)
        fail_devices(runs, ['sim'], script, reported)
        meet_devices(runs, feed, frames, script)
        refuse_chain(runs)
        refuse_server(runs, feed)
    print('%d refused, %d ended otherwise, after %.0f s' % (runs.tried, runs.wrong, time.monotonic() - begin))
    sys.exit(1 if runs.wrong else 0)


main()
