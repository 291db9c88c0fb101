"""Clients of many watches with a process of their own, so that one can be stopped, and takes no time of the one that reads the other watches.
For tests/streams and bench/watches. Run as a program it is such a client:

    streaming_clients.py busy PORT CONNECTIONS         Puts and Ranges on so many connections without a rest, until its standard input ends
    streaming_clients.py change PORT SEED COUNT REST   changes of the keys that `draw_watch` watches, with rests of so many seconds between them
    streaming_clients.py read                          reads the watches that its first line names, until each was told of a certain key

What it saw it writes to standard output as JSON.
"""
import json
import os
import random
import select
import signal
import subprocess
import sys
import time

sys.dont_write_bytecode = True
import streaming

base, expect, coded, revision_of = streaming.base, streaming.expect, streaming.coded, streaming.revision_of
KEYS, LAST, Stream, Streams = streaming.KEYS, streaming.LAST, streaming.Stream, streaming.Streams


# ---- as its test has it

class Clients:
    """Clients with a process of their own, which are ended with the test."""

    def __init__(self, *programs):
        self.programs = list(programs)

    def __enter__(self):
        return self

    def __exit__(self, *_):
        for program in self.programs:
            program.stop()

    def add(self, program):
        self.programs.append(program)
        return program


class Still:
    """A process is stopped for a second, meanwhile streams are read."""

    def __init__(self, process, streams):
        self.process, self.streams = process, streams

    def __enter__(self):
        self.process.send_signal(signal.SIGSTOP)

    def __exit__(self, *_):
        self.streams.rests(1)
        self.process.send_signal(signal.SIGCONT)


class Program:
    """A client with a process of its own. What it saw is read at its end."""

    def __init__(self, *words):
        words = [sys.executable, os.path.abspath(__file__), *map(str, words)]
        self.process = subprocess.Popen(words, stdin=subprocess.PIPE, stdout=subprocess.PIPE, stderr=subprocess.PIPE)

    def says(self, line):
        self.process.stdin.write(json.dumps(line).encode() + b'\n')
        self.process.stdin.flush()

    def has_said(self):
        poll = select.poll()
        poll.register(self.process.stdout, select.POLLIN)
        return bool(poll.poll(0))

    def saw(self):
        """What it saw, once its standard input has ended."""
        out, err = self.process.communicate(timeout=base.MOST_WAIT)
        expect(self.process.returncode == 0 and out, err.decode() or 'a client says nothing')
        return json.loads(out)

    def stop(self):
        if self.process.poll() is None:
            self.process.kill()
            self.process.wait()


class Seen:
    """A stream that another program has read."""

    def __init__(self, asked, told):
        self.asked, self.told, self.refusal, self.closed = asked, told, None, None

    expect_created = Stream.expect_created


# ---- as it runs

def busy(port, connections):
    """How many changes were made, and how many requests."""
    dice, changes, requests = random.Random(connections), 0, 0
    peers = {peer.socket.fileno(): peer for peer in [base.Peer(port) for _ in range(connections)]}
    poll = select.epoll()
    poll.register(0, select.EPOLLIN | select.EPOLLHUP)
    for file in peers:
        poll.register(file, select.EPOLLIN)
    puts = [base.put('b/%03d' % number, 'x' * dice.randrange(100)) for number in range(100)]
    ranges = [base.request('/v3/kv/range', {'key': coded('b/%03d' % number)}) for number in range(100)]
    for peer in peers.values():
        peer.send(dice.choice(puts))
    is_over, waiting = False, len(peers)
    while waiting:
        for file, _ in poll.poll():
            if file == 0:
                is_over = True
                poll.unregister(0)
                continue
            was_put = revision_of(peers[file]) and getattr(peers[file], 'puts', True)
            changes, requests = changes + was_put, requests + 1
            peers[file].puts = dice.random() < 0.7
            if is_over:
                waiting -= 1
            else:
                peers[file].send(dice.choice(puts if peers[file].puts else ranges))
    return {'changes': changes, 'requests': requests}


def change(port, seed, count, rest):
    """The changes: [the moment each was sent, that of its reply, its revision, its operations]. The last puts the key `LAST`."""
    dice, stands, changes = random.Random(seed), set(), []
    with base.Peer(port) as peer:
        for turn in range(count):
            time.sleep(rest)
            keys = dice.sample(KEYS, dice.choice([1, 1, 1, 2, 3])) if turn < count - 1 else [LAST]
            operations = [[key, None if key in stands and dice.random() < 0.3 else 'turn %d %s' % (turn, 'x' * dice.randrange(600))] for key in keys]
            stands.update(keys)
            stands -= {key for key, value in operations if value is None}
            sent = time.monotonic()
            peer.send(change_request(operations))
            revision = revision_of(peer)
            changes.append([sent, time.monotonic(), revision, operations])
    return changes


def change_request(operations):
    if len(operations) == 1 and operations[0][1] is not None:
        return base.put(*operations[0])
    if len(operations) == 1:
        return base.request('/v3/kv/deleterange', {'key': coded(operations[0][0])})
    return base.request('/v3/kv/txn', {'success': [
        {'request_delete_range': {'key': coded(key)}} if value is None else {'request_put': {'key': coded(key), 'value': coded(value)}}
        for key, value in operations]})


def read():
    """Its line has the port, the watches as (what is asked, room), and the key that each is told of last. It says that they are created, and
    once each was told of the key, and nothing more came for a while, what each was told."""
    wanted = json.loads(sys.stdin.readline())
    streams, mark = Streams(), b'"key":"%s"' % coded(wanted['last']).encode()
    opened = [stream for asked, room in wanted['watches'] for stream in streams.open(wanted['port'], [asked], room)]
    print('created', flush=True)
    streams.until(lambda: all(mark in stream.told[-1][1] for stream in opened), base.MOST_WAIT, 'a watch is not told of the last change')
    streams.rests(0.2)
    return [[[moment, text.decode()] for moment, text in stream.told] for stream in opened]


def main():
    word, *rest = sys.argv[1:]
    if word == 'busy':
        return busy(int(rest[0]), int(rest[1]))
    if word == 'change':
        return change(int(rest[0]), int(rest[1]), int(rest[2]), float(rest[3]))
    return read()


if __name__ == '__main__':
    try:
        print(json.dumps(main()))
    except (streaming.Wrong, OSError) as failure:
        sys.exit('a client of its own: %s: %s' % (type(failure).__name__, failure))
