#!/usr/bin/env python3
"""Holds `typha sim` against a plain program of the same meaning, on random scripts.

usage: interleavings.py [--count N] [--seed S] [--show] PROGRAM

The plain program knows no trees, sessions, frames in pieces or staged maps: it keeps the feed's lines, and for each client
numbers and marks, folds from scratch for each map that it shows, and makes every byte of a connection anew for each event.
Each script is run by both; what they write, their notes and their statuses must be equal. The same seed makes the same
scripts. The last line is 'N equal, M differ'; the status is 1 where one differs. --show prints the scripts that do.
"""
import argparse, json, random, subprocess, sys

CLIENTS, BATCH, MESSAGE, WEIGHT = 64, 100, 100, 1_048_576
STATUSES = ('wait-for-ready', 'resync', 'in-sync')
NO_STATUS = STATUSES[0]

# --- the feed

def item_of(line):
    """None for no item; ('mark',), ('state', s), ('put', key, text) or ('del', key). A bad line raises ValueError."""
    if not line.strip(b' \t\r'):
        return ('mark',)
    said = json.loads(line.decode())
    if not isinstance(said, dict) or ('key' in said) == ('status' in said):
        raise ValueError
    if 'status' in said:
        if said['status'] not in STATUSES:
            raise ValueError
        return ('state', said['status'])
    key, value = said['key'], said.get('value')
    if not isinstance(key, str) or not isinstance(said.get('revision', ''), str):
        raise ValueError
    if key == '/calico/v1/Ready':
        valid = isinstance(value, bool)
    elif key.startswith('/calico/v1/config/'):
        valid = isinstance(value, str)
    else:
        return None
    return ('put', key, text_of(value)) if valid else ('del', key)

def text_of(value):
    return json.dumps(value, ensure_ascii=False, separators=(',', ':'), sort_keys=True)

def closings(items, ended):
    at, updates = [], 0
    for place, item in enumerate(items, 1):
        updates += item[0] in ('put', 'del')
        if item[0] in ('mark', 'state') or updates == BATCH:
            at.append(place)
            updates = 0
    if ended and (not at or at[-1] != len(items)):
        at.append(len(items))
    return at

def fold(items):
    pairs, status = {}, NO_STATUS
    for item in items:
        if item[0] == 'put':
            pairs[item[1]] = item[2]
        elif item[0] == 'del':
            pairs.pop(item[1], None)
        elif item[0] == 'state':
            status = item[1]
    return pairs, status

def book_of(items, ended):
    """The worlds, and the deltas of each but the first."""
    worlds, deltas, cut, before = [({}, NO_STATUS)], [[]], 0, 0
    for at in closings(items, ended):
        new = fold(items[:at])
        if new != worlds[-1]:
            keys = dict.fromkeys(i[1] for i in items[before:at] if i[0] in ('put', 'del'))
            old = worlds[-1][0]
            deltas.append([(k, kind(old, new[0], k), new[0].get(k)) for k in keys if old.get(k) != new[0].get(k)])
            worlds.append(new)
        before = at
    return worlds, deltas

def kind(old, new, key):
    return 'new' if key not in old else 'updated' if key in new else 'deleted'

# --- the bytes of a connection

def frame(message):
    body = text_of(message).encode()
    return len(body).to_bytes(4, 'big') + body

def kvs(deltas):
    group, weight = [], 0
    for key, what, value in deltas:
        more = len(key.encode()) + len((value or '').encode())
        if group and (len(group) == MESSAGE or weight + more > WEIGHT):
            yield {'kvs': group, 'm': 'kvs'}
            group, weight = [], 0
        group.append({'key': key, 'type': what} | ({} if value is None else {'value': value}))
        weight += more
    if group:
        yield {'kvs': group, 'm': 'kvs'}

def messages(worlds, deltas, marks):
    sent = None
    for what, number in marks:
        if what == 'start':
            yield {'m': 'server_hello', 'version': 1}
            pairs, status = worlds[number]
            yield from kvs([(k, 'new', pairs[k]) for k in sorted(pairs, key=str.encode)])
            yield {'m': 'status', 'status': status}
            yield {'m': 'crumb', 'n': number}
            sent = number
        elif what == 'group':
            yield from kvs([d for n in range(sent + 1, number + 1) for d in deltas[n]])
            if worlds[sent][1] != worlds[number][1]:
                yield {'m': 'status', 'status': worlds[number][1]}
            yield {'m': 'crumb', 'n': number}
            sent = number
        else:
            yield {'m': 'ping', 'ts': number}

# --- the run

class Fault(Exception):
    pass

class Run:
    def __init__(self):
        self.items, self.worlds, self.deltas, self.times, self.now = [], [({}, NO_STATUS)], [[]], [0], 0
        self.links, self.held = {}, {}

    def last(self):
        return len(self.worlds) - 1

    def standing(self, n):
        return '%d %s %d' % (n, self.worlds[n][1], len(self.worlds[n][0]))

    def pairs(self, n):
        pairs = self.worlds[n][0]
        return [text_of({'key': k, 'value': pairs[k]}) for k in sorted(pairs, key=str.encode)]

    def publish(self, ended):
        before = self.last()
        self.worlds, self.deltas = book_of(self.items, ended)
        for n in range(before + 1, self.last() + 1):
            self.times.append(self.now)
            yield 'crumb ' + self.standing(n)

    def line(self, line):
        item = item_of(line)
        if item:
            self.items.append(item)
        yield from self.publish(False)

    def join(self, c):
        if c in self.links:
            return ['client %d present' % c]
        self.links[c] = dict(opened=self.now, heard=self.now, up=1, marks=[], got=0, joined=None, offered=0)
        return ['client %d open' % c]

    def hear(self, c, k):
        heard = ['client %d heard %d' % (c, k['up'])]
        if k['up']:
            if k['joined'] is None:
                k.update(joined=self.now, pinged=self.now, marks=[('start', self.last())], offered=self.last())
                heard.append('client %d joined %d' % (c, self.last()))
            k.update(heard=self.now, up=0)
        return heard

    def step(self, c, k):
        if k['joined'] is None:
            return ['client %d waiting' % c]
        ended_at = [n for what, n in k['marks'] if what != 'ping'][-1]
        if k['offered'] == self.last():
            if ended_at < k['offered']:
                k['marks'].append(('group', k['offered']))
            return ['client %d pending %d' % (c, k['offered'])]
        n = k['offered'] + 1
        if self.now - self.times[n] > 300_000 and self.now - k['joined'] > 300_000:
            del self.links[c]
            return ['client %d dropped too-slow %d %d' % (c, self.times[n], self.now)]
        k['offered'] = n
        count = sum(len(self.deltas[i]) for i in range(ended_at + 1, n + 1))
        if self.now - self.times[n] < 100 or count >= MESSAGE:
            k['marks'].append(('group', n))
        return ['client %d step %d' % (c, n)]

    def get(self, c, n, k):
        down = list(messages(self.worlds, self.deltas, k['marks']))
        ends, at = [], 0
        for message in down:
            at += len(frame(message))
            ends.append(at)
        before, k['got'] = k['got'], min(k['got'] + n, at)
        came = [m for m, end in zip(down, ends) if before < end <= k['got']]
        k['up'] += sum(m['m'] == 'ping' for m in came)
        numbers = [m['n'] for m in came if m['m'] == 'crumb']
        told = []
        for number in numbers:
            self.held[c] = number
            told += ['client %d at %s' % (c, self.standing(number))] + self.pairs(number)
        if not numbers and c in self.held:
            told = ['client %d still %s' % (c, self.standing(self.held[c]))] + self.pairs(self.held[c])
        return told or ['client %d still none' % c]

    def cut(self, c, k):
        del self.links[c]
        return ['client %d cut' % c]

    def tick(self, ms):
        self.now += ms
        for c in sorted(self.links):
            k = self.links[c]
            if k['joined'] is None and self.now - k['opened'] > 10_000:
                del self.links[c]
                yield 'client %d dropped no-hello %d %d' % (c, k['opened'], self.now)
            elif k['joined'] is not None and self.now - k['heard'] > 60_000:
                del self.links[c]
                yield 'client %d dropped no-pong %d %d' % (c, k['heard'], self.now)
            elif k['joined'] is not None and self.now - k['pinged'] >= 10_000:
                k['pinged'] = self.now
                k['marks'].append(('ping', self.now))

    def event(self, line):
        start = line.lstrip(b' \t\r')
        if not start or start.startswith(b'{'):
            try:
                line.decode()
            except UnicodeDecodeError:
                raise Fault('not UTF-8')
            try:
                return list(self.line(line))
            except (ValueError, RecursionError):
                raise Fault('not a feed line')
        name, *numbers = said(line)
        if name == 'join':
            return self.join(*numbers)
        if name == 'tick':
            return list(self.tick(*numbers))
        if numbers[0] not in self.links:
            return ['client %d absent' % numbers[0]]
        return getattr(self, name)(*numbers, self.links[numbers[0]])

FORMS = {'join': (CLIENTS,), 'step': (CLIENTS,), 'hear': (CLIENTS,), 'cut': (CLIENTS,), 'get': (CLIENTS, 2**40), 'tick': (10**6,)}

def said(line):
    words = line.replace(b'\t', b' ').split(b' ')
    words = [w.decode('latin-1') for w in words if w]
    most = FORMS.get(words[0]) if words else None
    if most is None or len(words) != len(most) + 1:
        raise Fault('not an event')
    for word, limit in zip(words[1:], most):
        if not (word.isascii() and word.isdigit()) or word != str(int(word)) or not 1 <= int(word) <= limit:
            raise Fault('not an event')
    return [words[0]] + [int(w) for w in words[1:]]

def plain(script):
    """What is written, the note and the status."""
    lines = script.split(b'\n')
    lines = lines if lines[-1] else lines[:-1]
    run, told = Run(), []
    for number, line in enumerate(lines, 1):
        try:
            told += run.event(line)
        except Fault as fault:
            return ''.join(t + '\n' for t in told).encode(), b'typha: line %d: %s\n' % (number, str(fault).encode()), 2
    told += list(run.publish(True)) + ['end %d' % run.last()]
    return ''.join(t + '\n' for t in told).encode(), b'', 0

# --- scripts

def feed_line(r, keys):
    what = r.random()
    if what < 0.12:
        return b''
    if what < 0.2:
        return text_of({'status': r.choice(STATUSES)}).encode()
    if what < 0.28:
        return text_of({'key': '/calico/v1/Ready', 'value': r.choice([True, False, None, 1, 'x'])}).encode()
    if what < 0.31:
        return text_of({'key': '/calico/v2/x', 'value': 1}).encode()
    value = r.choice(['1', '2', 'a"b', 'c\\d', '\u00e9\u4e2d', 'x' * r.randrange(1, 300), None, 7])
    return text_of({'key': '/calico/v1/config/%s%d' % (r.choice('abK'), r.randrange(keys)), 'value': value}).encode()

FAULTS = (b'{', b'{"status":"up"}', b'get 1 0', b'join 65', b'step', b'tick 01', b'{\xff}', b'\xff', b'jump 1', b'{"key":7}')

def script_lines(r, clients, keys):
    """A few lines that belong together, and how often they come."""
    c, ticks = r.randint(1, clients), r.choice([1, 50, 99, 100, 9_999, 10_000, 50_000, 60_001, 300_001])
    count = r.choice([1, 2, 3, 19, 36, 100, 1000, 100_000, 2**40])
    hears = [b'get %d 1000000' % c, b'hear %d' % c]
    return r.choices(*zip(
        ([feed_line(r, keys)], 30),
        ([feed_line(r, keys) or b' ' for _ in range(r.choice([1, 99, 100, 101, 250]))], 3),
        ([b'join %d' % c, b'hear %d' % c], 12),
        ([r.choice([b'join %d', b'hear %d', b'cut\t%d']) % c], 6),
        ([b'step %d' % c] * r.choice([1, 1, 3]), 18),
        ([b'get %d %d' % (c, count)] * r.choice([1, 1, 4]), 15),
        (hears, 8),
        ([b' tick %d' % ticks], 5),
        ([b'tick 50000', *hears] * r.choice([1, 6, 7]), 3),
        ([r.choice(FAULTS)], 0.3),
    ))[0]

def script(r):
    clients, keys = r.choice([1, 2, 3, 64]), r.choice([2, 10, 400])
    lines = [line for _ in range(r.randrange(120)) for line in script_lines(r, clients, keys)]
    return b'\n'.join(lines) + r.choice([b'\n', b''])

def main():
    words = argparse.ArgumentParser(description=__doc__.splitlines()[0])
    words.add_argument('--count', type=int, default=100)
    words.add_argument('--seed', type=int, default=1)
    words.add_argument('--show', action='store_true')
    words.add_argument('program')
    words = words.parse_args()
    equal = differ = 0
    for n in range(words.count):
        text = script(random.Random('%d %d' % (words.seed, n)))
        ran = subprocess.run([words.program, 'sim'], input=text, capture_output=True, timeout=120)
        if (ran.stdout, ran.stderr, ran.returncode) == plain(text):
            equal += 1
            continue
        differ += 1
        print('script %d of seed %d differs' % (n, words.seed))
        if words.show:
            sys.stdout.buffer.write(text + b'\n')
    print('%d equal, %d differ' % (equal, differ))
    return differ != 0

if __name__ == '__main__':
    sys.exit(main())
