"""What the scripts of this folder share: the built program, a free port, frames of the talk, and what a client rebuilds."""
import json
import os
import socket
import subprocess
import sys
import tempfile
import time

TOP = os.path.dirname(os.path.dirname(os.path.abspath(__file__)))
PROGRAM = os.path.join(TOP, 'crates/typha/out/typha')
LIMIT = 90
TAIL = 1 << 16


def check_built():
    if not os.access(PROGRAM, os.X_OK):
        sys.exit('build the program first: ./typha stream </dev/null')


def free_port():
    with socket.socket() as probe:
        probe.bind(('127.0.0.1', 0))
        return probe.getsockname()[1]


def dial(port, seconds=10):
    """A connection to a server that may not listen yet."""
    limit = time.monotonic() + seconds
    while True:
        try:
            return socket.create_connection(('127.0.0.1', port), seconds)
        except ConnectionRefusedError:
            if time.monotonic() > limit:
                raise
            time.sleep(0.05)


def frame(**message):
    body = json.dumps(message, separators=(',', ':'), sort_keys=True).encode()
    return len(body).to_bytes(4, 'big') + body


def hello(host):
    return frame(m='client_hello', version=1, host=host)


def memory_of(pid, what):
    """Megabytes: VmRSS is what a process has now, VmHWM the most that it has had."""
    with open('/proc/%d/status' % pid) as status:
        for line in status:
            if line.startswith(what + ':'):
                return int(line.split()[1]) / 1024
    return 0.0


def last_map(text):
    """The lines from the last `at` on, in the file of a client's text. The client may still be writing it."""
    size = os.fstat(text.fileno()).st_size
    length = min(size, TAIL)
    while True:
        tail = os.pread(text.fileno(), length, size - length)
        at = tail.rfind(b'\nat ')
        if at >= 0 or length == size:
            return tail[at + 1:]
        length = min(size, 2 * length)


def rebuilt(feed):
    """The last map that `stream | follow` prints."""
    with tempfile.TemporaryFile() as lines, tempfile.TemporaryFile() as frames, tempfile.TemporaryFile() as text:
        lines.write(feed)
        lines.seek(0)
        subprocess.run([PROGRAM, 'stream'], stdin=lines, stdout=frames, check=True, timeout=LIMIT)
        frames.seek(0)
        subprocess.run([PROGRAM, 'follow'], stdin=frames, stdout=text, check=True, timeout=LIMIT)
        return last_map(text)


class Client:
    """A client of the program's own, whose text goes to a file."""

    def __init__(self, port):
        self.text = tempfile.TemporaryFile()
        self.process = subprocess.Popen([PROGRAM, 'follow', '--at', '127.0.0.1:%d' % port], stdout=self.text,
                                        stderr=subprocess.PIPE)

    def kill(self):
        self.process.kill()
        self.process.wait()

    def ended(self):
        """Its status, its note and its last map."""
        _, note = self.process.communicate(timeout=LIMIT)
        return self.process.returncode, note, last_map(self.text)
