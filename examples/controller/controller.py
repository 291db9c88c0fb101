"""A small controller over etcd's JSON gateway: whoever puts a job under /jobs/ finds it done under /done/.

It holds a lock by a lease, lists the jobs that are there, and then watches for others from the very next revision, so that none is
missed and none comes twice; where a compaction goes past what it was told of, it lists them again. Each job is done in one transaction, which asks that the lock is still its own: a controller that lost
its lease does nothing more, and another one that waits takes over.
"""
import base64
import http.client
import json
import socket
import threading

JOBS, DONE, LOCK = '/jobs/', '/done/', '/lock/controller'


def coded(text):
    return base64.b64encode(text.encode()).decode()


def text_of(code):
    return base64.b64decode(code).decode()


def end_of(prefix):
    """The end of the range of all keys with a prefix."""
    return prefix[:-1] + chr(ord(prefix[-1]) + 1)


class Refused(Exception):
    """The store answered with another status than 200."""


class Compacted(Exception):
    """A watch was to tell of a revision below the last compaction: what stands has to be listed again."""


class Store:
    """One client: requests on one connection that is kept, and a connection of its own for each watch."""

    def __init__(self, address):
        self.address = address
        self.connection = http.client.HTTPConnection(address, timeout=30)
        self.lock = threading.Lock()
        self.is_closed = False

    def ask(self, path, **body):
        with self.lock:
            if self.is_closed:
                raise ConnectionError('the client is closed')
            self.connection.request('POST', '/v3/' + path, json.dumps(body))
            reply = self.connection.getresponse()
            text = reply.read()
        if reply.status != 200:
            raise Refused(text.decode())
        return json.loads(text)

    def put(self, key, value):
        self.ask('kv/put', key=coded(key), value=coded(value))

    def get(self, key):
        """The value of a key, or None."""
        kvs = self.ask('kv/range', key=coded(key)).get('kvs', [])
        return text_of(kvs[0]['value']) if kvs else None

    def list(self, prefix):
        """(the revision, [(key, value, revision of its last change)]) of the keys with a prefix."""
        told = self.ask('kv/range', key=coded(prefix), range_end=coded(end_of(prefix)))
        return int(told['header']['revision']), [(text_of(kv['key']), text_of(kv.get('value', '')), int(kv['mod_revision']))
                                                 for kv in told.get('kvs', [])]

    def watch(self, key, end, start):
        return Watch(self.address, key, end, start)

    def close(self):
        with self.lock:
            self.is_closed = True
            self.connection.close()


class Watch:
    """The events of a range from a revision on, one after the other: (kind, key, value, revision). Ends by Compacted where they are
    gone."""

    def __init__(self, address, key, end, start):
        asked = {'key': coded(key), 'start_revision': str(start)}
        if end:
            asked['range_end'] = coded(end)
        self.connection = http.client.HTTPConnection(address)
        self.connection.request('POST', '/v3/watch', json.dumps({'create_request': asked}))
        self.socket = self.connection.sock
        self.stream = self.connection.getresponse()
        json.loads(self.stream.readline())      # created

    def __iter__(self):
        try:
            while line := self.stream.readline():
                told = json.loads(line)['result']
                if told.get('canceled'):
                    raise Compacted(told.get('compact_revision'))
                for event in told.get('events', []):
                    kv = event['kv']
                    yield event.get('type', 'PUT'), text_of(kv['key']), text_of(kv.get('value', '')), int(kv['mod_revision'])
        finally:
            self.stream.close()
            self.socket.close()

    def close(self):
        """Ends it, from another thread too; the events end then."""
        try:
            self.socket.shutdown(socket.SHUT_RDWR)
        except OSError:
            pass            # it ended before


class Controller:
    """Does jobs from `run` until `stop`; `work` makes the result of a job from its value."""

    def __init__(self, address, name, work, seconds=2):
        self.store, self.name, self.work, self.seconds = Store(address), name, work, seconds
        self.stopped = threading.Event()
        self.watch = None
        self.lease = self.locked_at = None

    def run(self):
        try:
            while not self.stopped.is_set():
                if self.take_lock():
                    self.lead()
        except (OSError, http.client.HTTPException, ValueError, AttributeError):
            if not self.stopped.is_set():
                raise
        finally:
            self.stopped.set()

    def take_lock(self):
        """Whether the lock is ours; else it waits until it is free."""
        self.lease = self.store.ask('lease/grant', TTL=str(self.seconds))['ID']
        threading.Thread(target=self.keep_lease, daemon=True).start()
        told = self.store.ask(
            'kv/txn',
            compare=[{'key': coded(LOCK), 'target': 'CREATE', 'result': 'EQUAL', 'create_revision': '0'}],
            success=[{'request_put': {'key': coded(LOCK), 'value': coded(self.name), 'lease': self.lease}}])
        self.locked_at = told['header']['revision']
        if told.get('succeeded'):
            return True
        for kind, *_ in self.watching(LOCK, None, int(self.locked_at) + 1):
            if kind == 'DELETE':
                break
        return False

    def keep_lease(self):
        """Renews the lease. Where it ran out, what we watch ends, and with it our lead."""
        lease = self.lease
        try:
            while not self.stopped.wait(self.seconds / 3) and lease == self.lease:
                if int(self.store.ask('lease/keepalive', ID=lease)['result'].get('TTL', 0)) <= 0:
                    if self.watch:
                        self.watch.close()
                    return
        except (OSError, http.client.HTTPException):
            pass            # then the lease runs out, and what it guards is refused

    def watching(self, key, end, start):
        self.watch = self.store.watch(key, end, start)
        if self.stopped.is_set():
            self.watch.close()
        return self.watch

    def lead(self):
        while self.is_passed_over():
            pass

    def is_passed_over(self):
        """Does the jobs that stand and those that come. Whether a compaction went past what it was told of."""
        revision, jobs = self.store.list(JOBS)
        for key, value, at in jobs:
            if not self.do(key, value, at):
                return False
        try:
            for kind, key, value, at in self.watching(JOBS, end_of(JOBS), revision + 1):
                if kind == 'PUT' and not self.do(key, value, at):
                    return False
        except Compacted:
            return True
        return False

    def do(self, key, value, at):
        """Does a job as it stood at a revision. False where the lock is no longer ours."""
        done = DONE + key[len(JOBS):]
        is_ours = {'key': coded(LOCK), 'target': 'CREATE', 'result': 'EQUAL', 'create_revision': self.locked_at}
        is_same = {'key': coded(key), 'target': 'MOD', 'result': 'EQUAL', 'mod_revision': str(at)}
        told = self.store.ask(
            'kv/txn',
            compare=[is_ours, is_same],
            success=[{'request_put': {'key': coded(done), 'value': coded('%s by %s' % (self.work(value), self.name))}},
                     {'request_delete_range': {'key': coded(key)}}],
            failure=[{'request_range': {'key': coded(LOCK)}}])
        if told.get('succeeded'):
            return True
        kvs = told['responses'][0]['response_range'].get('kvs', [])
        return bool(kvs) and kvs[0]['create_revision'] == self.locked_at

    def stop(self, politely=True):
        """Ends it; the lock goes with its lease, at once or when that runs out."""
        self.stopped.set()
        if self.watch:
            self.watch.close()
        if politely and self.lease:
            self.store.ask('lease/revoke', ID=self.lease)
        self.store.close()
