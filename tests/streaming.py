"""Many watches read by one thread: what each was told, when, and how its stream ended; and what it had to be told, by a history of the keys.
For tests/streams, tests/stream_ends and bench/watches; clients with a process of their own are in streaming_clients.py.
"""
import argparse
import base64
import importlib.machinery
import importlib.util
import json
import os
import random
import resource
import select
import socket
import statistics
import subprocess
import sys
import time

TOP = os.path.dirname(os.path.dirname(os.path.abspath(__file__)))


def script(path):
    """A script of this repository, as a module."""
    sys.dont_write_bytecode = True
    loader = importlib.machinery.SourceFileLoader(path.replace('/', '_') + '_script', os.path.join(TOP, path))
    module = importlib.util.module_from_spec(importlib.util.spec_from_loader(loader.name, loader))
    loader.exec_module(module)
    return module


base = script('tests/http')
Wrong, expect, coded = base.Wrong, base.expect, base.coded
KEYS = ['w/%02d' % number for number in range(16)]
LAST = 'w/last'                                           # watched as one of them, and changed last of all
MOST = 5.0                                                # seconds: nothing takes longer, be the machine as busy as it may


# ---- streams

class Stream:
    """A watch on a connection of its own. `told` has the messages, each with the moment at which it had come whole; `last` is the moment of
    the last chunk, and `closed` that of the connection's end. With `room` little waits for its client in either kernel."""

    def __init__(self, port, asked, room=None, behind=b''):
        self.asked, self.told, self.left = asked, [], bytearray()
        self.is_begun, self.refusal, self.last, self.closed = False, None, None, None
        self.socket = socket.socket()
        if room:
            self.socket.setsockopt(socket.SOL_SOCKET, socket.SO_RCVBUF, room)
            self.socket.setsockopt(socket.IPPROTO_TCP, socket.TCP_MAXSEG, min(room // 4, 32767))
        self.socket.connect(('127.0.0.1', port))
        self.socket.setsockopt(socket.IPPROTO_TCP, socket.TCP_NODELAY, 1)
        self.socket.sendall(base.request('/v3/watch', {'create_request': asked}) + behind)
        self.socket.setblocking(False)

    def take(self, most=1 << 18):
        """Reads once, at most so many bytes."""
        try:
            part = self.socket.recv(most)
        except BlockingIOError:
            return
        except ConnectionResetError:
            part = b''
        now = time.monotonic()
        if not part:
            self.closed = now
            return
        expect(self.last is None, 'behind the last chunk comes %r' % part[:100])
        self.left += part
        while self.cut(now):
            pass

    def cut(self, now):
        """Cuts the head, or a chunk, off what has come; whether there was a whole one, and more may come."""
        if not self.is_begun:
            return self.cut_head()
        at = self.left.find(b'\r\n', 0, 20)
        expect(at >= 0 or len(self.left) < 20, 'a chunk begins %r' % bytes(self.left[:100]))
        if at < 0:
            return False
        count = int(self.left[:at], 16)
        expect(self.left[:at] == b'%x' % count, 'a chunk begins %r' % bytes(self.left[:at]))
        if len(self.left) < at + count + 4:
            return False
        message = bytes(memoryview(self.left)[at + 2:at + 2 + count])
        expect(self.left[at + 2 + count:at + 4 + count] == b'\r\n' and message.endswith(b'\n' if count else b''), 'a chunk ends otherwise')
        del self.left[:at + count + 4]
        if count:
            self.told.append((now, message))
        else:
            self.last = now
            expect(not self.left, 'behind the last chunk comes %r' % bytes(self.left[:100]))
        return count > 0

    def cut_head(self):
        head, mark, rest = bytes(self.left).partition(b'\r\n\r\n')
        if not mark:
            return False
        lines = head.decode().lower().split('\r\n')
        if lines[0] == 'http/1.1 200 ok':
            expect('transfer-encoding: chunked' in lines, 'a stream begins %r' % head)
            self.is_begun, self.left = True, bytearray(rest)
            return True
        count = next(int(line.split(': ')[1]) for line in lines if line.startswith('content-length: '))
        if len(rest) >= count:
            self.refusal = int(lines[0].split(' ')[1]), json.loads(rest[:count])
            self.left = bytearray(rest[count:])
        return False

    def is_answered(self):
        return bool(self.told or self.refusal or self.closed)

    def expect_created(self):
        expect(self.told, 'a watch is not created: it is told %r, and its connection %s' % (
            self.refusal, 'is closed' if self.closed else 'goes on'))
        created = json.loads(self.told[0][1])['result']
        expect(created.get('created') is True and not {'events', 'canceled'} & set(created), 'a watch is first told %r' % created)
        return int(created['header']['revision'])

    def is_ended(self):
        return self.closed is not None

    def expect_ended(self):
        """It has ended in order."""
        expect(self.closed and self.last, 'a stream %s without its last chunk' % ('ends' if self.closed else 'goes on'))


    def has_come(self):
        """Whether something waits to be read."""
        try:
            return bool(self.socket.recv(1, socket.MSG_PEEK))
        except BlockingIOError:
            return False


class Streams:
    """Streams that are read as their bytes come."""

    def __init__(self):
        self.poll, self.by_file = select.epoll(), {}

    def add(self, stream):
        self.by_file[stream.socket.fileno()] = stream
        self.poll.register(stream.socket, select.EPOLLIN)
        return stream

    def rest(self, stream):
        """It is not read any more."""
        if self.by_file.pop(stream.socket.fileno(), None):
            self.poll.unregister(stream.socket)

    def leave(self, stream):
        self.rest(stream)
        stream.socket.close()

    def read(self, seconds):
        """Reads what has come, and waits so long for something to come."""
        for file, _ in self.poll.poll(seconds):
            stream = self.by_file[file]
            stream.take()
            if stream.closed:
                self.rest(stream)

    def until(self, holds, seconds, what):
        """Reads until something holds; after so many seconds it is wrong."""
        end = time.monotonic() + seconds
        while not holds():
            expect(time.monotonic() < end, what() if callable(what) else what)
            self.read(0.01)

    def rests(self, seconds):
        """Reads for so long."""
        end = time.monotonic() + seconds
        while time.monotonic() < end:
            self.read(0.01)

    def open(self, port, wanted, room=None):
        """Watches of these requests, each created, by the numbers of the engine in their order."""
        opened = []
        for asked in wanted:
            opened.append(self.add(Stream(port, asked, room)))
            if len(opened) % 32 == 0 or len(opened) == len(wanted):
                self.until(lambda: all(stream.is_answered() for stream in opened[-32:]), 20,
                           lambda: 'of %d watches %d are created in 20 s' % (len(wanted), sum(bool(stream.told) for stream in opened)))
        for stream in opened:
            stream.expect_created()
        return opened


# ---- what a watch has to be told

def draw_watch(dice, number, revision=1):
    """What watch `number` asks for: every other one for previous values, three of four for all keys of a range, some without Puts or deletions,
    some from a revision on that is at most a little above this one. Its messages name its number."""
    first, last = sorted(dice.sample(range(len(KEYS) + 1), 2))
    asked = dice.choice([{'key': coded(KEYS[first])}, {'key': coded('w/'), 'range_end': coded('w0')}, {'key': coded('w/'), 'range_end': 'AA=='},
                         {'key': coded(KEYS[first]), 'range_end': coded((KEYS + ['w0'])[last])}])
    asked['watch_id'] = str(number + 1)
    if number % 2 == 0:
        asked['prev_kv'] = True
    if dice.random() < 0.1:
        asked['filters'] = [dice.choice(['NOPUT', 'NODELETE'])]
    if revision > 1 and dice.random() < 0.3:
        asked['start_revision'] = str(dice.randrange(1, revision + 6))
    return asked


class History:
    """What happened to some keys: their events in order, each with its revision, its key and the key-value before."""

    def __init__(self):
        self.now, self.events = {}, []

    def changed(self, revision, operations):
        """One change: [(key, value or None where it is deleted)]"""
        for key, value in operations:
            before = self.now.pop(key, None)
            if value is None:
                event = {'kv': {'key': coded(key), 'mod_revision': str(revision)}, 'type': 'DELETE'}
            else:
                kv = {'create_revision': before['create_revision'] if before else str(revision), 'key': coded(key),
                      'mod_revision': str(revision), 'value': coded(value), 'version': str(int(before['version']) + 1 if before else 1)}
                event, self.now[key] = {'kv': kv}, kv
            self.events.append((revision, key.encode(), event, before))

    def told(self, asked, start):
        """The events that a watch from a revision on is told."""
        first, end = (base64.b64decode(asked.get(name, '')) for name in ('key', 'range_end'))
        filters = asked.get('filters', [])
        came = []
        for revision, key, event, before in self.events:
            is_within = key == first if not end else first <= key and (end == b'\0' or key < end)
            is_dropped = ('NODELETE' if 'type' in event else 'NOPUT') in filters
            if revision >= start and is_within and not is_dropped:
                came.append(dict(event, prev_kv=before) if before and asked.get('prev_kv') else event)
        return came

    def judge(self, stream):
        """A stream was told, behind `created`, each event that concerns it, once, in order, in whole revisions; gives how many."""
        start = stream.expect_created() + 1
        came, revision = [], 0
        for _, text in stream.told[1:]:
            message = json.loads(text)['result']
            expect(set(message) - {'watch_id'} == {'header', 'events'}, 'a watch is told %r' % (text[:300],))
            expect(message.get('watch_id') == stream.asked.get('watch_id'), '%r is told a message of another: %r' % (stream.asked, text[:300]))
            revisions = [int(event['kv']['mod_revision']) for event in message['events']]
            expect(revisions == sorted(revisions) and revisions[0] > revision, 'a message tells revisions %r behind %d' % (revisions[:20], revision))
            revision = revisions[-1]
            expect(int(message['header']['revision']) >= revision, 'a message at %r tells %d' % (message['header'], revision))
            came += message['events']
        wanted = self.told(stream.asked, int(stream.asked.get('start_revision', start)))
        expect(came == wanted, 'the watch %r: %s' % (stream.asked, difference(came, wanted)))
        return len(came)


def has_all(opened, revision):
    """Whether those that watch `LAST` were told of it."""
    mark = b'"key":"%s","mod_revision":"%d"' % (coded(LAST).encode(), revision)
    return all(mark in stream.told[-1][1] for stream in opened if 'range_end' in stream.asked and concerns_last(stream.asked))


def concerns_last(asked):
    return 'filters' not in asked and base64.b64decode(asked['range_end']) in (b'w0', b'\0')


def difference(came, wanted):
    at = next((at for at, (one, other) in enumerate(zip(came, wanted)) if one != other), min(len(came), len(wanted)))
    shown = [str(events[at])[:160] if at < len(events) else 'nothing' for events in (came, wanted)]
    word = 'is told once more' if at < len(came) and came[at] in came[:at] else 'is told'
    return 'event %d of %d (%d came) %s: %s in place of %s' % (at, len(wanted), len(came), word, *shown)


# ---- a client that puts

def revision_of(peer):
    """The revision of the reply that comes next, which has to be a good one."""
    status, _, body = peer.reply()
    expect(status == 200, 'a request is told %d %r' % (status, body))
    return int(body['header']['revision'])


class Writer:
    """A client that puts keys, and their history. `waited` has the seconds from each Put to the last of its events, and `behind` those from its
    reply."""

    def __init__(self, server, streams):
        self.server, self.streams, self.peer, self.history = server, streams, base.Peer(server.port), History()
        self.waited, self.behind = [], []

    def put(self, key, value):
        self.peer.send(base.put(key, value))
        self.history.changed(revision_of(self.peer), [(key, value)])
        self.server.changed()

    def tells(self, key, value, opened):
        """Puts a key, and waits until each of these streams was told."""
        sent, told = time.monotonic(), [len(stream.told) + 1 for stream in opened]
        self.put(key, value)
        replied = time.monotonic()
        self.streams.until(lambda: [len(stream.told) for stream in opened] == told, MOST, 'a watch is not told of a change')
        self.waited.append(time.monotonic() - sent)
        self.behind.append(time.monotonic() - replied)


# ---- measures and tests

def controlled(binary, *options):
    """A server that is controlled by lines, as tests/control has it."""
    control = script('tests/control')
    control.Wrong = Wrong
    return control.Server(binary, *options)


def resident(server):
    """MiB that the server has in memory."""
    with open('/proc/%d/status' % server.process.pid) as status:
        return next(int(line.split()[1]) for line in status if line.startswith('VmRSS:')) / 1024


def late(times):
    """The 99th of 100."""
    return sorted(times)[len(times) * 99 // 100]


def ms(seconds):
    return '%.1f ms' % (1000 * seconds)


def spread(times):
    return 'half within %s, 99 of 100 within %s, the longest %s' % (ms(statistics.median(times)), ms(late(times)), ms(max(times)))


def leaves(streams, opened):
    """The clients of some streams leave: half close, and half end their sending side, and are told the end in order."""
    for stream in opened[1::2]:
        stream.socket.shutdown(base.socket.SHUT_WR)
    for stream in opened[::2]:
        streams.leave(stream)
    shut = opened[1::2]
    streams.until(lambda: all(stream.is_ended() for stream in shut), MOST, 'a stream goes on whose client has ended its sending side')
    for stream in shut:
        stream.expect_ended()
        stream.socket.close()


def run(name, test, connections, workers, asked):
    """Runs a test on a server of its own, if it wants one; whether it passed."""
    start, server = time.monotonic(), None
    try:
        if connections:
            server = base.Server([asked.binary], connections, workers)
            did = test(server, random.Random(asked.seed))
            server.fill()
            server.close()
        else:
            did = test(asked.binary, random.Random(asked.seed))
        passed = True
    except (Wrong, OSError, ValueError, KeyError, subprocess.TimeoutExpired) as failure:
        did, passed = '%s: %s' % (type(failure).__name__, failure), False
    finally:
        if server:
            server.stop()
    print('%s: %s: %s (%.1f s)' % (name, test.__name__, did, time.monotonic() - start), flush=True)
    return passed


def run_all(name, tests):
    """Runs the tests of a script, each (test, its connections, workers, and how many files it has open); the status to end with."""
    words = argparse.ArgumentParser()
    words.add_argument('--binary', default=os.path.join(TOP, 'etcd_one'))
    words.add_argument('--only')
    words.add_argument('--seed', type=int, default=57)
    asked = words.parse_args()
    soft, hard = resource.getrlimit(resource.RLIMIT_NOFILE)
    may = max(soft, 4096 if hard == resource.RLIM_INFINITY else min(4096, hard))
    resource.setrlimit(resource.RLIMIT_NOFILE, (may, hard))
    failed = 0
    for test, connections, workers, files in tests:
        if asked.only not in (None, test.__name__):
            continue
        if files > may:
            print('%s: %s: left out, since %d files may be open, and it wants %d' % (name, test.__name__, may, files))
        elif not run(name, test, connections, workers, asked):
            failed = 1
    return failed
