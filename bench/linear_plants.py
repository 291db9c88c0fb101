"""What bench/linear falsifies in a run, to see that its judges find it: PLANTS has, for each kind of run, functions from a run to a false one."""
import dataclasses
import json

import linear_judge as judge

PUT = '/v3/kv/put'
PLANTS = {'recorded': {}, 'unrecorded': {}}


class NotFound(Exception):
    """A run has nothing that could be falsified in this way."""


def plant(*kinds):
    def take(function):
        for kind in kinds:
            PLANTS[kind][function.__name__.rstrip('_')] = function
        return function
    return take


def one(draw, found):
    """One of what was found, by chance."""
    found = list(found)
    if not found:
        raise NotFound('nothing in this run can be falsified so')
    return draw.choice(found)


def exchanges(run):
    return [it for client in run.clients for it in client]


def told_as(run, *changes):
    """A run in which some exchanges were told otherwise: each with its status and reply."""
    new = {it: dataclasses.replace(it, status=status, reply=reply) for it, status, reply in changes}
    return dataclasses.replace(run, clients=[[new.get(it, it) for it in client] for client in run.clients])


def is_put(it):
    return it is not None and it.path == PUT and it.status == 200


def is_whole(it):
    """A Range of the present, whose reply shows all keys with their values."""
    return it.path == judge.RANGE and it.status == 200 and not {'revision', 'limit', 'count_only', 'keys_only'} & set(it.body)


# ---- of both kinds of runs

@plant('recorded', 'unrecorded')
def swapped(run, draw):
    """Two replies of one client."""
    client = one(draw, (client for client in run.clients if sum(map(is_put, client)) > 1))
    first, second = draw.sample([it for it in client if is_put(it)], 2)
    return told_as(run, (first, second.status, second.reply), (second, first.status, first.reply))


@plant('recorded', 'unrecorded')
def foreign(run, draw):
    """A client is told what another one was."""
    puts = [it for it in exchanges(run) if is_put(it)]
    it = one(draw, puts)
    return told_as(run, (it, 200, one(draw, (other for other in puts if other.client != it.client and other.reply != it.reply)).reply))


@plant('recorded', 'unrecorded')
def repeated(run, draw):
    """A Range is told once more what its client was told before, to the same question, and at an older revision than it has seen since."""
    asked, last, found = {}, {}, []
    for it in exchanges(run):
        question = it.client, judge.written(dict(it.body, mark=None))
        if it.path == judge.RANGE and it.status == 200:
            if question in asked and asked[question].revision < last[it.client]:
                found.append((it, asked[question].reply))
            asked[question] = it
        last[it.client] = it.revision or last.get(it.client, 1)
    it, reply = one(draw, found)
    return told_as(run, (it, 200, reply))


@plant('recorded', 'unrecorded')
def closed(run, _):
    """A change behind all that anybody was told of."""
    return dataclasses.replace(run, closed=run.closed + 1)


# ---- of a run with its recording

def with_lines(run, lines):
    return dataclasses.replace(run, lines=lines, replies=run.play(lines))


def put_line(run, draw):
    """The place of some line that put something."""
    return one(draw, (at for at, line in enumerate(run.lines) if line.startswith('POST %s ' % PUT)))


@plant('recorded')
def left_out(run, draw):
    """A line of the recording."""
    at = put_line(run, draw)
    return with_lines(run, run.lines[:at] + run.lines[at + 1:])


@plant('recorded')
def doubled(run, draw):
    at = put_line(run, draw)
    return with_lines(run, run.lines[:at] + run.lines[at:at + 1] + run.lines[at:])


@plant('recorded')
def of_nobody(run, draw):
    """A line that no client asked for."""
    at = put_line(run, draw)
    return with_lines(run, run.lines[:at] + ['POST %s {"key":"eA==","mark":"nobody"}' % PUT] + run.lines[at:])


@plant('recorded')
def misread(run, draw):
    """A line with another key than was asked for, and the reply that was told."""
    at = put_line(run, draw)
    body = dict(json.loads(run.lines[at].split(' ', 2)[2]), key='eno=')
    return dataclasses.replace(run, lines=run.lines[:at] + ['POST %s %s' % (PUT, json.dumps(body))] + run.lines[at + 1:])


@plant('recorded')
def turned(run, draw):
    """A line that is refused wherever it stands goes ahead of one that was answered before it was sent, of another client."""
    owners, found = judge.owned(run)[0], []
    for at, it in enumerate(owners):
        if it and it.refusal() == 'etcdserver: key is not provided':
            start = next((place for place in range(at - 1, -1, -1) if owners[place] and owners[place].client == it.client), -1) + 1
            found += [(place, at) for place in range(start, at) if owners[place] and owners[place].received < it.sent][:1]
    to, at = one(draw, found)
    moved = [part[:to] + part[at:at + 1] + part[to:at] + part[at + 1:] for part in (run.lines, run.replies)]
    return dataclasses.replace(run, lines=moved[0], replies=moved[1])


def beside_puts(run, is_behind):
    """Serializable Ranges of what their client put right before them, or puts right behind them: (it, the number of the put's line)."""
    at = {it: number for number, it in enumerate(judge.owned(run)[0], 1) if it}
    for client in run.clients:
        for first, second in zip(client, client[1:]):
            put, it = (first, second) if is_behind else (second, first)
            if is_put(put) and it.is_serializable() and is_whole(it) and judge.within({judge.decoded(put.body['key']): None}, it.body):
                yield it, at[put]


def played_behind(run, it, count):
    """What a Range is told behind so many lines."""
    return run.play(run.lines[:count] + [it.line()])[-1][4:]


@plant('recorded')
def behind(run, draw):
    """A serializable Range misses what its own client had put."""
    it, at = one(draw, beside_puts(run, True))
    return told_as(run, (it, 200, played_behind(run, it, at - 1)))


@plant('recorded')
def ahead(run, draw):
    """A serializable Range tells of what its client puts later."""
    it, at = one(draw, beside_puts(run, False))
    return told_as(run, (it, 200, played_behind(run, it, at)))


@plant('recorded')
def torn(run, draw):
    """A serializable Range has its revision, and what was held before its client's last put."""
    found = list(beside_puts(run, True))
    for it, at in draw.sample(found, len(found)):
        reply = judge.REVISION.sub(b'"revision":"%d"' % it.revision, played_behind(run, it, at - 1))
        if reply != it.reply:
            return told_as(run, (it, 200, reply))
    raise NotFound('no serializable Range is told of its client\'s last put')


@plant('recorded')
def misrefused(run, draw):
    """What the gateway refuses is refused as another request was."""
    found = [it for it in exchanges(run) if str(it.refusal()).startswith('gateway: ')]
    it = one(draw, found)
    other = one(draw, (other for other in found if other.reply != it.reply))
    return told_as(run, (it, other.status, other.reply))


# ---- of a run without one

class Known:
    """What the judge makes of a run, and what each client had been told before an exchange, and is told next."""

    def __init__(self, run):
        self.run = run
        self.writes = judge.writes_of(run)[0]
        self.states, self.floors, self.seen, self.next = judge.history(run, self.writes)[0], judge.Floors(run), {}, {}
        for client in run.clients:
            last, coming = 1, run.closed
            for it in client:
                self.seen[it] = last
                last = max(last, it.revision or 0)
            for it in reversed(client):
                self.next[it] = coming
                coming = it.revision or coming
        self.ranges = [it for it in exchanges(run) if is_whole(it)]

    def at(self, it, revision):
        """The exchange with the very reply that it has at another revision."""
        told = judge.made(it.path, it.body, self.states[it.asked_revision or revision], revision, shown=revision)[0]
        return told_as(self.run, (it, 200, told))


def refused_as(run, it, fault):
    return told_as(run, (it, 400, judge.written({'code': 11, 'error': fault, 'message': fault})))


@plant('unrecorded')
def unheard(run, draw):
    """A write for nobody: what its client was told of it is left out."""
    it = one(draw, filter(is_put, exchanges(run)))
    return dataclasses.replace(run, clients=[[other for other in client if other is not it] for client in run.clients])


@plant('unrecorded')
def doubled_(run, draw):
    """A write that two were told of."""
    it = one(draw, filter(is_put, exchanges(run)))
    return dataclasses.replace(run, clients=run.clients + [[dataclasses.replace(it, client=len(run.clients), number=0)]])


@plant('unrecorded')
def late(run, draw):
    """A write that was sent after a later one had been answered."""
    known = Known(run)
    it, other = one(draw, ((it, known.writes[at + 1]) for at, it in known.writes.items()
                           if at + 1 in known.writes and known.writes[at + 1].client != it.client))
    new = dataclasses.replace(it, sent=other.received + 1, received=max(it.received, other.received + 2))
    return dataclasses.replace(run, clients=[[new if one is it else one for one in client] for client in run.clients])


@plant('unrecorded')
def stale(run, draw):
    """A Range that is not serializable misses what another client had been told before it was sent."""
    known = Known(run)
    it = one(draw, (it for it in known.ranges if not it.is_serializable() and known.floors.at(it.sent) > known.seen[it]))
    return known.at(it, known.floors.at(it.sent) - 1)


@plant('unrecorded')
def behind_(run, draw):
    """A serializable Range misses what its own client had seen."""
    known = Known(run)
    it = one(draw, (it for it in known.ranges if it.is_serializable() and known.seen[it] > 1))
    return known.at(it, known.seen[it] - 1)


@plant('unrecorded')
def ahead_(run, draw):
    """A Range tells of a write that was not yet asked for."""
    known = Known(run)
    return known.at(*one(draw, ((it, known.next[it]) for it in known.ranges
                                if known.next[it] > 1 and known.writes[known.next[it]].sent > it.received)))


@plant('unrecorded')
def torn_(run, draw):
    """A Range has one key as it was before."""
    known, found = Known(run), []
    for it in known.ranges:
        if len(it.told.get('kvs', [])) > 1:
            key = judge.decoded(draw.choice(it.told['kvs'])['key'])
            before = known.states[known.states[it.revision][key][1] - 1].get(key)
            found += [(it, key, before)] if before else []
    it, key, before = one(draw, found)
    kvs = [judge.kv(key, before) if kv['key'] == judge.coded(key) else kv for kv in it.told['kvs']]
    return told_as(run, (it, 200, judge.written(dict(it.told, kvs=kvs))))


@plant('unrecorded')
def spared(run, draw):
    """A Range is answered of a revision that was given up before it was sent."""
    known = Known(run)
    told = [it for it in exchanges(run) if it.path == judge.COMPACTION and it.revision]
    it = one(draw, (it for it in exchanges(run) if it.path == judge.RANGE and it.refusal() == judge.COMPACTED and not it.is_serializable() and
                    any(other.asked_revision > it.asked_revision and other.received < it.sent for other in told)))
    return known.at(it, known.floors.at(it.sent))


@plant('unrecorded')
def too_soon(run, draw):
    """A Range is refused as compacted before somebody asks for that."""
    told = [it for it in exchanges(run) if it.path == judge.COMPACTION and it.revision]
    it = one(draw, (it for it in exchanges(run) if it.path == judge.RANGE and it.status == 200 and it.asked_revision and
                    not any(other.asked_revision > it.asked_revision and other.sent < it.received for other in told)))
    return refused_as(run, it, judge.COMPACTED)


@plant('unrecorded')
def of_the_past(run, draw):
    """A Range is refused for a future revision that somebody had been told of."""
    known = Known(run)
    it = one(draw, (it for it in exchanges(run) if it.path == judge.RANGE and it.status == 200 and 1 < it.asked_revision <= known.seen[it]))
    return refused_as(run, it, judge.FUTURE)
