"""The judges of bench/linear: of what clients asked and were told, and nothing else, each gives the faults that it finds, a line each."""
import base64
import bisect
import dataclasses
import functools
import json
import re

REVISION = re.compile(rb'"revision":"(\d+)"')
EXPIRED = re.compile(rb'expired \d+ revision (\d+)')
FOR_NOBODY = {'AT': (b'at ',), 'EXPIRE': (b'expired ',), 'TRIM': (b'removed ', b'kept ', b'done ')}   # the lines of no client, and their replies
RANGE, COMPACTION = '/v3/kv/range', '/v3/kv/compaction'
COMPACTED = 'etcdserver: mvcc: required revision has been compacted'
FUTURE = 'etcdserver: mvcc: required revision is a future revision'
NO_LEASE = 'etcdserver: requested lease not found'
IDS = {'cluster_id': '9', 'member_id': '4', 'raft_term': '1'}


def read(text):
    """The object that a text is; {} where it is none."""
    try:
        found = json.loads(text)
    except ValueError:
        return {}
    return found if isinstance(found, dict) else {}


def written(told):
    """An answer's text: without spaces, in the order of its names."""
    return json.dumps(told, separators=(',', ':'), sort_keys=True).encode()


def unlike(told, wanted):
    """Two texts from a little before their first difference on."""
    at = next((at for at, (one, other) in enumerate(zip(told, wanted)) if one != other), min(len(told), len(wanted)))
    start = max(0, at - 60)
    return tuple(b'..' * (start > 0) + it[start:start + 200] for it in (told, wanted))


@dataclasses.dataclass(eq=False)
class Exchange:
    """What a client asked, as its request of that number, and what it was told; the moments are of one clock for all clients."""
    client: int
    number: int
    path: str
    text: str
    sent: int
    received: int
    status: int
    reply: bytes

    @functools.cached_property
    def body(self):
        return read(self.text)

    @functools.cached_property
    def told(self):
        return read(self.reply)

    @functools.cached_property
    def revision(self):
        """That of the header; None of a refusal."""
        found = REVISION.search(self.reply) if self.status == 200 else None
        return int(found[1]) if found else None

    @functools.cached_property
    def asked_revision(self):
        return int(self.body.get('revision', 0))

    def refusal(self):
        return None if self.status == 200 else self.told.get('error')

    def is_serializable(self):
        return self.path == RANGE and self.body.get('serializable') is True

    def has_line(self):
        """What is no event of the store is not recorded: a serializable Range, and what the gateway refuses before it is a command."""
        return not self.is_serializable() and not str(self.refusal()).startswith('gateway: ')

    def line(self):
        """Its line in a recording."""
        return 'POST %s %s' % (self.path, self.text.replace('\n', ' ').replace('\r', ' '))

    def answer(self):
        """What `replay` answers such a line."""
        return b'%d %s' % (self.status, self.reply)

    def __str__(self):
        return 'client %d, request %d, %s %s' % (self.client, self.number, self.path, ' '.join(self.text.split())[:160])


# ---- a run with its recording

@dataclasses.dataclass
class Recorded:
    """The exchanges of each client in its order, the lines of the recording and what `replay` answers each, the revision at which the server
    said that it closed, and how a script is played."""
    clients: list
    lines: list
    replies: list
    closed: int
    play: object

    def judge(self):
        owners, faults = owned(self)
        faults += in_order(owners)
        if revisions_behind(self.replies)[-1] != self.closed:
            faults.append('the server closed at revision %d, and its recording at %d' % (self.closed, revisions_behind(self.replies)[-1]))
        return faults or beside(self, owners)


def owned(run):
    """Whose each line is (None where it is nobody's), and the faults: each request's line stands once, with its own reply."""
    asked, owners, faults = {}, [], []
    for it in (it for client in run.clients for it in client if it.has_line()):
        if it.line() in asked:
            faults.append('%s: asked twice, so it is not known whose a line is' % it)
        asked[it.line()] = it
    for number, (line, reply) in enumerate(zip(run.lines, run.replies), 1):
        it = asked.pop(line, None)
        if it and reply != it.answer():
            faults.append('%s: told %r, and its line %r (%d)' % (it, *unlike(it.answer(), reply), number))
        elif not it and not reply.startswith(FOR_NOBODY.get(line.split(' ')[0], ())):
            faults.append('line %d is of no client, or stands once more: %s (%r)' % (number, line[:200], reply[:100]))
        owners.append(it)
    return owners, faults + ['%s: told %r, and has no line' % (it, it.answer()[:200]) for it in asked.values()]


def in_order(owners):
    """The faults in the order of lines: each client's are in its own, and none stands behind one that was sent after its reply had come."""
    before, latest, faults = {}, None, []
    for number, it in enumerate(owners, 1):
        if it is None:
            continue
        if it.client in before and before[it.client].number > it.number:
            faults.append('%s: line %d stands behind that of its request %d' % (it, number, before[it.client].number))
        elif latest and it.received < latest.sent:
            faults.append('%s: answered before a request was sent that stands before its line %d: %s' % (it, number, latest))
        before[it.client] = it
        latest = it if latest is None or it.sent > latest.sent else latest
    return faults


def revisions_behind(replies):
    """The revision of the store behind so many lines."""
    revisions = [1]
    for reply in replies:
        found = REVISION.search(reply) or EXPIRED.match(reply)
        revisions.append(int(found[1]) if found else revisions[-1])
    return revisions


def beside(run, owners):
    """The faults of what has no line: each such reply is that of one moment, which lies behind its client's request before it and before
    the next, not before the moment of another one that it was told before, and ahead of each line that was asked for after the reply."""
    revisions = revisions_behind(run.replies)
    tells = [at == 0 or revisions[at] != revisions[at - 1] or COMPACTION in run.lines[at - 1] for at in range(len(revisions))]
    asked = list(moments(run, owners, lambda at, first, it: (first or tells[at]) and it.revision in (None, revisions[at])))
    behind = {}
    for it, found in asked:
        for at in found:
            behind.setdefault(at, []).append(it)
    lines, places = [], []
    for at in range(len(revisions)):
        more = behind.get(at, [])
        lines += run.lines[at - 1:at] + [it.line() for it in more]
        places += ([None] if at else []) + [(it, at) for it in more]
    faults, fitting = [], {it: [] for it, _ in asked}
    replies = run.play(lines)
    if [reply for reply, place in zip(replies, places) if place is None] != run.replies:
        faults.append('Ranges between the lines change what the lines are answered')
    for reply, place in zip(replies, places):
        if place and reply == place[0].answer():
            fitting[place[0]].append(place[1])
    return faults + rising(asked, fitting)


def moments(run, owners, may_be):
    """(request without a line, behind how many lines it may have been answered)"""
    at = {it: number for number, it in enumerate(owners, 1) if it}
    for client in run.clients:
        low, waiting = 0, []
        for it in [*client, None]:
            if it is not None and it not in at:
                waiting.append(it)
                continue
            high = at[it] if it else len(owners) + 1
            for one in waiting:
                end = next((number for number in range(low + 1, high) if owners[number - 1] and owners[number - 1].sent > one.received), high)
                yield one, [number for number in range(low, end) if may_be(number, number == low, one)]
            low, waiting = high, []


def rising(asked, fitting):
    """The faults where no moment that fits is behind those of the same client before."""
    faults, last = [], {}
    for it, _ in asked:
        at = next((at for at in fitting[it] if at >= last.get(it.client, 0)), None)
        if at is None:
            faults.append('%s: told %r, which is of no moment between its neighbours' % (it, it.answer()[:200]))
        else:
            last[it.client] = at
    return faults


# ---- a plain store, for a run without a recording

def decoded(text):
    return base64.b64decode(text or '')


def coded(text):
    return base64.b64encode(text).decode()


def kv(key, held, keys_only=False):
    """A key and what it holds, as an answer shows it."""
    create, mod, version, value, lease = held
    told = {'key': coded(key), 'create_revision': str(create), 'mod_revision': str(mod), 'version': str(version)}
    told.update({'value': value} if value and not keys_only else {})
    return dict(told, lease=lease) if lease != '0' else told


def within(state, asked):
    """The keys that a range has, in their order."""
    key, end = decoded(asked['key']), decoded(asked.get('range_end'))
    return sorted(it for it in state if (it == key if not end else key <= it and (end == b'\0' or it < end)))


def holds(compare, state):
    held = state.get(decoded(compare['key']))
    if compare['target'] == 'VALUE' and held is None:
        return False
    create, mod, version, value, lease = held or (0, 0, 0, '', '0')
    name, is_now = {'VERSION': ('version', version), 'CREATE': ('create_revision', create), 'MOD': ('mod_revision', mod),
                    'LEASE': ('lease', int(lease)), 'VALUE': ('value', decoded(value))}[compare['target']]
    wanted = decoded(compare[name]) if name == 'value' else int(compare[name])
    return {'EQUAL': is_now == wanted, 'NOT_EQUAL': is_now != wanted, 'GREATER': is_now > wanted, 'LESS': is_now < wanted}[compare['result']]


class Making:
    """A command as it is carried out upon a store: `state` has what each key holds, (create, mod, version, value, lease)."""

    def __init__(self, state, revision):
        self.before, self.state, self.revision, self.is_changed, self.header = state, dict(state), revision + 1, False, {}

    def put(self, asked):
        key = decoded(asked['key'])
        held = self.state.get(key)
        self.state[key] = (held[0] if held else self.revision, self.revision, held[2] + 1 if held else 1, asked['value'], asked.get('lease', '0'))
        self.is_changed = True
        return {'prev_kv': kv(key, held)} if held and asked.get('prev_kv') else {}

    def delete(self, asked):
        gone = [(key, self.state.pop(key)) for key in within(self.state, asked)]
        self.is_changed = self.is_changed or bool(gone)
        told = {'prev_kvs': [kv(*it) for it in gone]} if gone and asked.get('prev_kv') else {}
        return dict(told, deleted=str(len(gone))) if gone else told

    def range(self, asked):
        keys, limit = within(self.state, asked), int(asked.get('limit', 0))
        shown = [] if asked.get('count_only') else [kv(key, self.state[key], asked.get('keys_only')) for key in keys]
        told = {'count': str(len(keys))} if keys else {}
        if 0 < limit < len(shown):
            told['more'], shown = True, shown[:limit]
        return dict(told, kvs=shown) if shown else told

    def txn(self, asked):
        succeeded = all(holds(it, self.before) for it in asked.get('compare', []))
        calls = {'request_put': self.put, 'request_delete_range': self.delete, 'request_range': self.range, 'request_txn': self.txn}
        responses = [{name.replace('request', 'response'): dict(calls[name](it), header=self.header)}
                     for operation in asked.get('success' if succeeded else 'failure', []) for name, it in operation.items()]
        return {**({'succeeded': True} if succeeded else {}), **({'responses': responses} if responses else {})}

    def idle(self, asked):
        """What changes nothing, and tells back what it was asked."""
        return {name: asked[name] for name in ('ID', 'TTL') if name in asked}


def made(path, asked, state, revision, shown=None):
    """(what a command is told, the state behind it, whether it changed it); a Range of an older state shows the revision of the present one."""
    making = Making(state, revision)
    call = {'/v3/kv/put': making.put, '/v3/kv/deleterange': making.delete, RANGE: making.range, '/v3/kv/txn': making.txn}.get(path, making.idle)
    told = call(asked)
    making.header['revision'] = str(shown or (making.revision if making.is_changed else revision))
    return written(dict(told, header=dict(IDS, **making.header))), making.state, making.is_changed


# ---- a run without a recording

@dataclasses.dataclass
class Unrecorded:
    """The exchanges of each client in its order, and the revision at which the server said that it closed."""
    clients: list
    closed: int

    def exchanges(self):
        return [it for client in self.clients for it in client]

    def answered(self):
        return [it for it in self.exchanges() if it.revision is not None]

    def judge(self):
        writes, faults = writes_of(self)
        states, more = history(self, writes)
        return faults + more + reads(self, writes, states) + goes_on(self) + real_time(self, writes) + Compactions(self).faults() + refusals(self)


def changes(path, told):
    """Whether a reply says that its command changed something."""
    if path == '/v3/kv/txn':
        return any(changes({'response_put': '/v3/kv/put', 'response_delete_range': '/v3/kv/deleterange', 'response_txn': path}.get(name), it)
                   for response in told.get('responses', []) for name, it in response.items())
    return path == '/v3/kv/put' or path == '/v3/kv/deleterange' and int(told.get('deleted', 0)) > 0


def writes_of(run):
    """The write of each revision, and the faults."""
    writes, faults = {}, []
    for it in run.answered():
        if changes(it.path, it.told):
            if it.revision in writes:
                faults.append('%s: told revision %d, as is %s' % (it, it.revision, writes[it.revision]))
            writes[it.revision] = it
    return writes, faults


def history(run, writes):
    """The state at each revision up to the first gap, and the faults: each revision is one client's write, and its reply that of its place."""
    states, faults = {1: {}}, ['revision %d is of no write that a client was told of' % it for it in range(2, run.closed + 1) if it not in writes]
    faults += ['%s: told revision %d, and the server closed at %d' % (it, at, run.closed) for at, it in writes.items() if not 1 < at <= run.closed]
    for at in range(2, run.closed + 1):
        if at not in writes:
            break
        told, states[at], is_changed = made(writes[at].path, writes[at].body, states[at - 1], at - 1)
        if not is_changed or told != writes[at].reply:
            faults.append('%s: told %r, and by what was written before it is %r' % (writes[at], *unlike(writes[at].reply, told)))
    return states, faults


def state_asked(it, states):
    """The state that a command is answered of, were it one that changes nothing."""
    return states.get(it.asked_revision if it.path == RANGE and it.asked_revision > 0 else it.revision)


def reads(run, writes, states):
    """The faults of what changed nothing: each is the answer at the revision that its header names."""
    faults = []
    for it in run.answered():
        if writes.get(it.revision) is it or state_asked(it, states) is None:
            continue
        told, _, is_changed = made(it.path, it.body, state_asked(it, states), it.revision, shown=it.revision)
        if is_changed or told != it.reply:
            faults.append('%s: told %r, and at its revision it is %r' % (it, *unlike(it.reply, told)))
    return faults


def goes_on(run):
    """The faults where a client is told a revision below one that it was told before."""
    faults = []
    for client in run.clients:
        last = 1
        for it in client:
            if it.revision is not None and it.revision < last:
                faults.append('%s: told revision %d behind revision %d' % (it, it.revision, last))
            last = max(last, it.revision or 0)
    return faults


class Floors:
    """The greatest revision that any client had been told at a moment."""

    def __init__(self, run):
        told = sorted((it.received, it.revision) for it in run.answered())
        self.moments, self.most = [moment for moment, _ in told], [1]
        for _, revision in told:
            self.most.append(max(self.most[-1], revision))

    def at(self, moment):
        return self.most[bisect.bisect_left(self.moments, moment)]


def real_time(run, writes):
    """The faults by the clock: nothing but a serializable Range is told less than somebody had been told as it was sent, a write more than
    that, and nothing is told of a write that was sent after its reply had come."""
    floors, faults = Floors(run), []
    for it in run.answered():
        floor = floors.at(it.sent) + (1 if writes.get(it.revision) is it else 0)
        if not it.is_serializable() and it.revision < floor:
            faults.append('%s: told revision %d, and %d was told before it was sent' % (it, it.revision, floors.at(it.sent)))
        if it.revision in writes and writes[it.revision].sent > it.received:
            faults.append('%s: told revision %d before that was asked for: %s' % (it, it.revision, writes[it.revision]))
    return faults


class Compactions:
    """What tells that history was given up, and the faults of what is refused by that, or is answered in spite of it."""

    def __init__(self, run):
        self.run, self.told = run, [it for it in run.exchanges() if it.refusal() == COMPACTED or it.path == COMPACTION and it.revision]
        self.made = [it for it in self.told if it.revision]

    def faults(self):
        return [fault for it in self.run.exchanges() if it.path in (RANGE, COMPACTION) and it.asked_revision > 0 for fault in self.of(it)]

    @staticmethod
    def least(it):
        """The least compaction by which a request is refused; of one that is told here also one that was made by then."""
        return it.asked_revision + (it.path == RANGE)

    def of(self, it):
        if it.refusal() == COMPACTED:
            if not any(self.least(other) >= self.least(it) and other.sent < it.received for other in self.made):
                yield '%s: refused as compacted, and nobody had asked for that' % it
        elif it.revision is not None:
            ended = next((other for other in self.told if self.least(other) >= self.least(it) and other.received < it.sent
                          and (not it.is_serializable() or other.client == it.client)), None)
            if ended:
                yield '%s: answered, and before it %d %r was told to %s' % (it, ended.status, ended.reply[:80], ended)
            if it.asked_revision > it.revision:
                yield '%s: answered at revision %d' % (it, it.revision)


def refusals(run):
    """The faults of refusals: each is one that the request has, and a revision that is told to lie in the future does so."""
    floors, faults = Floors(run), []
    for client in run.clients:
        last = 1
        for it in client:
            last = max(last, it.revision or 0)
            refusal, may_be_early = it.refusal(), it.path in (RANGE, COMPACTION)
            floor = last if it.is_serializable() else floors.at(it.sent)
            if it.revision is None and not (refusal == COMPACTED and may_be_early or refusal == NO_LEASE and 'lease' in it.body
                                            or refusal == FUTURE and may_be_early and it.asked_revision > floor):
                faults.append('%s: told %d %r' % (it, it.status, it.reply[:200]))
    return faults
