"""The store as a plain program: each state that it ever had, whole, by its revision, and the leases, the clock and the watches. It is what the
papers say, written to be read from top to bottom in place of the proofs, and shares nothing with the store. For tests/schedules.

`line` is what `replay` answers a line of a script, byte for byte, but for a trimming step, which changes nothing here.
"""
import base64
import dataclasses
import json

IDS = {'cluster_id': '1', 'member_id': '1', 'raft_term': '1'}
MOST_EVENTS, MOST_WATCHES, MOST_LEASES, MOST_IN_TXN, DEEPEST, LONGEST_TTL, LAST_MOMENT = 1000, 1024, 65_536, 1_024, 8, 9_000_000_000, 2 ** 62
COMPACTED = (400, 11, 'etcdserver: mvcc: required revision has been compacted')
FUTURE = (400, 11, 'etcdserver: mvcc: required revision is a future revision')
NO_KEY = (400, 3, 'etcdserver: key is not provided')
TOO_MANY = (400, 3, 'etcdserver: too many operations in txn request')
DUPLICATE_KEY = (400, 3, 'etcdserver: duplicate key given in txn request')
VALUE_GIVEN = (400, 3, 'etcdserver: value is provided')
LEASE_GIVEN = (400, 3, 'etcdserver: lease is provided')
KEY_MISSING = (400, 3, 'etcdserver: key not found')
LEASE_MISSING = (404, 5, 'etcdserver: requested lease not found')
LEASE_EXISTS = (400, 9, 'etcdserver: lease already exists')
TTL_TOO_LARGE = (400, 11, 'etcdserver: too large lease TTL')
TOO_MANY_LEASES = (400, 8, 'etcdserver: too many leases')
TOO_MANY_WATCHES = (400, 8, 'etcdserver: too many watches')
FIELDS = {'VERSION': 'version', 'CREATE': 'create', 'MOD': 'mod', 'VALUE': 'value', 'LEASE': 'lease', 'KEY': 'key'}
NAMES = {'VERSION': 'version', 'CREATE': 'create_revision', 'MOD': 'mod_revision', 'VALUE': 'value', 'LEASE': 'lease'}


class Refused(Exception):
    """A request that is refused: its status, code and text."""


def refuse_if(is_so, refusal):
    if is_so:
        raise Refused(*refusal)


def coded(text):
    return base64.b64encode(text).decode()


def decoded(asked, name):
    return base64.b64decode(asked.get(name, ''))


def number(asked, name):
    return int(asked.get(name, 0))


def written(told):
    """An answer's text: without spaces, in the order of its names."""
    return json.dumps(told, separators=(',', ':'), sort_keys=True)


def shown(**fields):
    """Fields of an answer: numbers are strings, bytes base64, and one at its default is left out."""
    return {name: str(it) if type(it) is int else coded(it) if type(it) is bytes else it for name, it in fields.items() if it}


@dataclasses.dataclass(frozen=True)
class Held:
    """What a key holds."""
    key: bytes
    value: bytes
    create: int
    mod: int
    version: int
    lease: int

    def shown(self, keys_only=False):
        value = b'' if keys_only else self.value
        return shown(key=self.key, value=value, create_revision=self.create, mod_revision=self.mod, version=self.version, lease=self.lease)


def has(key, end, it):
    """Whether a range has a key: without an end its first key alone, and with the end 0 all from it on."""
    return it == key if not end else key <= it and (end == b'\0' or it < end)


def within(state, asked):
    """What the live keys of a range hold, in their order."""
    key, end = decoded(asked, 'key'), decoded(asked, 'range_end')
    return [state[it] for it in sorted(state) if has(key, end, it)]


def is_so(compare, held):
    """Whether a compare holds of what a key holds. Where it holds nothing, a value has no answer, and any number is 0."""
    target = compare.get('target', 'VERSION')
    if target == 'VALUE' and held is None:
        return False
    wanted = decoded(compare, 'value') if target == 'VALUE' else number(compare, NAMES[target])
    found = getattr(held, FIELDS[target]) if held else 0
    return {'EQUAL': found == wanted, 'GREATER': found > wanted, 'LESS': found < wanted, 'NOT_EQUAL': found != wanted}[compare.get('result', 'EQUAL')]


def holds(compare, state):
    """Whether a compare holds of each live key of its range."""
    return all(is_so(compare, held) for held in within(state, compare) or [None])


# ---- what is refused before the store is looked at

def put_fault(asked):
    refuse_if(not asked.get('key'), NO_KEY)
    refuse_if(asked.get('ignore_value') and asked.get('value'), VALUE_GIVEN)
    refuse_if(asked.get('ignore_lease') and number(asked, 'lease'), LEASE_GIVEN)


def txn_fault(txn, depth):
    """Of a transaction that lies in so many others, in the order of the document."""
    refuse_if(depth >= DEEPEST, TOO_MANY)
    refuse_if(any(len(txn.get(name, [])) > MOST_IN_TXN for name in ('compare', 'success', 'failure')), TOO_MANY)
    refuse_if(any(not it.get('key') for it in txn.get('compare', [])), NO_KEY)
    for (kind, asked), in (it.items() for it in txn.get('success', []) + txn.get('failure', [])):
        if kind == 'request_txn':
            txn_fault(asked, depth + 1)
        elif kind == 'request_put':
            put_fault(asked)
        else:
            refuse_if(not asked.get('key'), NO_KEY)


def collide(one, other):
    """Whether two operations change a key in common, one of them by a put."""
    (kind, asked), (other_kind, other_asked) = one, other
    if kind == 'request_put':
        kind, asked, other_kind, other_asked = other_kind, other_asked, kind, asked
    if other_kind != 'request_put' or kind == 'request_range':
        return False
    return has(decoded(asked, 'key'), b'' if kind == 'request_put' else decoded(asked, 'range_end'), decoded(other_asked, 'key'))


def operations(txn):
    """(all operations of a transaction and those within it, whether two of them that can run together collide)"""
    rows = [row_operations(txn.get(name, [])) for name in ('success', 'failure')]
    return rows[0][0] + rows[1][0], rows[0][1] or rows[1][1]


def row_operations(row):
    every, is_clash = [], False
    for (kind, asked), in (it.items() for it in row):
        own, clash = operations(asked) if kind == 'request_txn' else ([(kind, asked)], False)
        is_clash = is_clash or clash or any(collide(one, other) for one in own for other in every)
        every += own
    return every, is_clash


# ---- the store

@dataclasses.dataclass
class Lease:
    ttl: int
    deadline: int


@dataclasses.dataclass
class Watch:
    """A watch, with the next revision that it looks at; one that is late began below a compaction."""
    asked: dict
    is_late: bool
    next: int


class Plain:
    """`states` has what each live key holds, at each revision and above it at none; `changes` has (revision, place in it, key, whether it is
    a put), in order."""

    def __init__(self):
        self.states, self.changes = [{}, {}], []
        self.compacted, self.clock, self.leases, self.watches, self.made = 0, 0, {}, {}, 0
        self.paths = {
            'kv/range': self.range, 'kv/put': self.put, 'kv/deleterange': self.delete, 'kv/txn': self.txn, 'kv/compaction': self.compact,
            'watch': self.watch, 'lease/grant': self.grant, 'lease/revoke': self.revoke, 'lease/keepalive': self.keep_alive,
            'lease/timetolive': self.time_to_live, 'lease/leases': self.list_leases}

    @property
    def revision(self):
        return len(self.states) - 1

    def line(self, line):
        """What a line is answered; None for a trimming step."""
        word, _, rest = line.partition(' ')
        if word == 'POST':
            path, _, text = rest.partition(' ')
            return self.post(path.removeprefix('/v3/'), json.loads(text))
        calls = {'AT': self.at, 'EXPIRE': self.expire, 'DELIVER': self.deliver, 'CLOSE': self.close, 'TRIM': lambda: None}
        return calls[word](*map(int, rest.split()))

    # ---- commands

    def post(self, path, asked):
        """A command. The state behind it is `now`, and stands if the command changed it; one that is refused changes nothing."""
        self.now, self.own = dict(self.states[-1]), []
        try:
            told = self.paths[path](asked)
        except Refused as refused:
            status, code, text = refused.args
            return '%d %s' % (status, written({'code': code, 'error': text, 'message': text}))
        self.stand()
        header = dict(IDS, revision=str(self.revision))
        for inner in told.pop('inner', []):
            inner['header'] = {'revision': header['revision']}
        if path in ('watch', 'lease/keepalive'):
            return '200 ' + written({'result': dict(told, header=header)})
        return '200 ' + written(dict(told, header=header))

    def stand(self):
        if self.own:
            self.changes += self.own
            self.states.append(self.now)

    def change(self, key, held):
        """Makes a change of the next revision: what a key holds from then on, or that it is deleted."""
        self.own.append((self.revision + 1, len(self.own), key, held is not None))
        self.now.pop(key, None)
        if held:
            self.now[key] = held

    def range(self, asked):
        """The live keys, counted, and then filtered, sorted, cut and stripped. What ties stays in the order of the keys. In a transaction it
        sees what the operations before it changed, but its own revision is held against the one before the transaction."""
        refuse_if(not asked.get('key'), NO_KEY)
        at = max(number(asked, 'revision'), 0)
        refuse_if(0 < at < self.compacted, COMPACTED)
        refuse_if(at > self.revision, FUTURE)
        found = within(self.states[at] if at else self.now, asked)
        passing = [] if asked.get('count_only') else [it for it in found if self.passes(asked, it)]
        target = FIELDS[asked.get('sort_target', 'KEY')]
        passing.sort(key=lambda it: getattr(it, target), reverse=asked.get('sort_order') == 'DESCEND')
        limit = number(asked, 'limit')
        cut = passing[:limit] if limit > 0 else passing
        return shown(count=len(found), kvs=[it.shown(asked.get('keys_only')) for it in cut], more=len(cut) < len(passing))

    @staticmethod
    def passes(asked, held):
        """Whether the bounds of a Range let a key pass; one of 0 bounds nothing."""
        return all(not number(asked, least) or number(asked, least) <= it for least, it in (
            ('min_mod_revision', held.mod), ('min_create_revision', held.create))) and all(
            not number(asked, most) or it <= number(asked, most) for most, it in (
                ('max_mod_revision', held.mod), ('max_create_revision', held.create)))

    def put(self, asked):
        put_fault(asked)
        key, value, lease = decoded(asked, 'key'), decoded(asked, 'value'), number(asked, 'lease')
        held = self.now.get(key)
        refuse_if((asked.get('ignore_value') or asked.get('ignore_lease')) and not held, KEY_MISSING)
        refuse_if(lease and lease not in self.leases, LEASE_MISSING)
        value = held.value if asked.get('ignore_value') else value
        lease = held.lease if asked.get('ignore_lease') else lease
        main = self.revision + 1
        self.change(key, Held(key, value, held.create if held else main, main, held.version + 1 if held else 1, lease))
        return {'prev_kv': held.shown()} if held and asked.get('prev_kv') else {}

    def delete(self, asked):
        refuse_if(not asked.get('key'), NO_KEY)
        gone = within(self.now, asked)
        for held in gone:
            self.change(held.key, None)
        return shown(deleted=len(gone), prev_kvs=[held.shown() for held in gone] if asked.get('prev_kv') else [])

    def txn(self, asked):
        txn_fault(asked, 0)
        refuse_if(operations(asked)[1], DUPLICATE_KEY)
        self.inner = []
        return dict(self.run(asked), inner=self.inner)

    def run(self, txn):
        """All compares, also those of transactions within, are decided on the state before the outermost one. The revision in the answers of
        its operations is the one behind it, which is put there once that is known (`inner`)."""
        succeeded = all(holds(it, self.states[-1]) for it in txn.get('compare', []))
        calls = {'request_range': self.range, 'request_put': self.put, 'request_delete_range': self.delete, 'request_txn': self.run}
        responses = []
        for (kind, asked), in (it.items() for it in txn.get('success' if succeeded else 'failure', [])):
            told = calls[kind](asked)
            self.inner.append(told)
            responses.append({kind.replace('request', 'response'): told})
        return shown(succeeded=succeeded, responses=responses)

    def compact(self, asked):
        at = max(number(asked, 'revision'), 0)
        refuse_if(at <= self.compacted, COMPACTED)
        refuse_if(at > self.revision, FUTURE)
        self.compacted = at
        return {}

    # ---- leases

    def grant(self, asked):
        """An ID of 0 asks for the least one above 0 that is not in use."""
        ttl, lease = max(number(asked, 'TTL'), 1), number(asked, 'ID')
        refuse_if(ttl > LONGEST_TTL, TTL_TOO_LARGE)
        refuse_if(lease in self.leases, LEASE_EXISTS)
        refuse_if(len(self.leases) >= MOST_LEASES, TOO_MANY_LEASES)
        lease = lease or next(it for it in range(1, MOST_LEASES + 1) if it not in self.leases)
        self.leases[lease] = Lease(ttl, self.clock + 1000 * ttl)
        return shown(ID=lease, TTL=ttl)

    def keys_of(self, lease):
        """The live keys whose last put names a lease."""
        return [key for key in sorted(self.now) if self.now[key].lease == lease]

    def revoke(self, asked):
        lease = number(asked, 'ID')
        refuse_if(lease not in self.leases, LEASE_MISSING)
        for key in self.keys_of(lease):
            self.change(key, None)
        del self.leases[lease]
        return {}

    def keep_alive(self, asked):
        lease = self.leases.get(number(asked, 'ID'))
        if lease:
            lease.deadline = self.clock + 1000 * lease.ttl
        return shown(ID=number(asked, 'ID'), TTL=lease.ttl if lease else 0)

    def time_to_live(self, asked):
        lease = self.leases.get(number(asked, 'ID'))
        if not lease:
            return shown(ID=number(asked, 'ID'), TTL=-1)
        keys = self.keys_of(number(asked, 'ID')) if asked.get('keys') else []
        return shown(ID=number(asked, 'ID'), TTL=max(lease.deadline - self.clock, 0) // 1000, grantedTTL=lease.ttl, keys=[coded(it) for it in keys])

    def list_leases(self, asked):
        return shown(leases=[shown(ID=it) for it in sorted(self.leases)])

    def at(self, moment):
        self.clock = max(self.clock, min(moment, LAST_MOMENT))
        return 'at %d' % self.clock

    def expire(self):
        """The lease that is due first, by deadline and then by ID, is revoked."""
        due = [(it.deadline, lease) for lease, it in self.leases.items() if it.deadline <= self.clock]
        if not due:
            return 'nothing'
        self.now, self.own = dict(self.states[-1]), []
        self.revoke({'ID': min(due)[1]})
        self.stand()
        return 'expired %d revision %d' % (min(due)[1], self.revision)

    # ---- watches

    def watch(self, asked):
        """A start of 0 or below is the next revision."""
        asked = asked['create_request']
        refuse_if(len(self.watches) >= MOST_WATCHES, TOO_MANY_WATCHES)
        start = number(asked, 'start_revision')
        first = start if start > 0 else self.revision + 1
        self.made += 1
        self.watches[self.made] = Watch(asked, first < self.compacted, first)
        return shown(created=True, watch_id=number(asked, 'watch_id'))

    def close(self, watch):
        return 'closed' if self.watches.pop(watch, None) else 'no watch'

    def undelivered(self, watch):
        """What a watch matches and was not told of. An empty key counts as the byte 0."""
        key, end, filters = decoded(watch.asked, 'key') or b'\0', decoded(watch.asked, 'range_end'), watch.asked.get('filters', [])
        return [it for it in self.changes if it[0] >= watch.next and has(key, end, it[2]) and ('NOPUT' if it[3] else 'NODELETE') not in filters]

    def deliver(self, number_of_watch):
        """Tells a watch what comes next: whole revisions, at least one, and not more events than a message takes; or that it is cancelled,
        since it is late or some of it is compacted."""
        watch = self.watches.get(number_of_watch)
        if not watch:
            return 'no watch'
        told = shown(watch_id=number(watch.asked, 'watch_id'), header=dict(IDS, revision=str(self.revision)))
        events = self.undelivered(watch)
        if watch.is_late or any(main < self.compacted for main, _, _, _ in events):
            del self.watches[number_of_watch]
            return written({'result': {**told, **shown(canceled=True, compact_revision=self.compacted)}})
        if not events:
            return 'nothing'
        fitting = [main for at, (main, _, _, _) in enumerate(events, 1) if at <= MOST_EVENTS and (at == len(events) or events[at][0] > main)]
        last = max(fitting, default=events[0][0])
        watch.next = last + 1
        return written({'result': dict(told, events=[self.event(watch, it) for it in events if it[0] <= last])})

    def event(self, watch, change):
        """An event, and what its key held before its revision, where that is asked for and the revision is not compacted."""
        main, _, key, is_put = change
        before = self.states[main - 1].get(key) if watch.asked.get('prev_kv') and self.compacted <= main else None
        kv = self.states[main][key].shown() if is_put else shown(key=key, mod_revision=main)
        return shown(kv=kv, prev_kv=before.shown() if before else None, type=None if is_put else 'DELETE')

    # ---- trimming

    def needed(self):
        """How many versions are needed: those above the last Compact; of each key the last one at or below it, be it a put or a deletion at
        its very revision; and where a key changed at that revision, what it held before."""
        above = sum(1 for main, _, _, _ in self.changes if main > self.compacted)
        last = {key: (main, is_put) for main, _, key, is_put in self.changes if main <= self.compacted}
        kept = sum(1 for main, is_put in last.values() if is_put or main == self.compacted)
        changed = {key for main, _, key, _ in self.changes if main == self.compacted}
        return above + kept + sum(1 for key in changed if key in self.states[max(self.compacted, 1) - 1])
