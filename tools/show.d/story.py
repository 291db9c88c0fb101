"""What the events of a script did: who changed which key, which leases stood, what watches were told, what was thrown away.

The replies say most of it. Which keys a delete or the end of a lease took they do not say, so the keys that are there are kept here
once more; where a reply speaks against that, `doubt` says at which line, and from there on the lanes of the keys may be wrong.
"""
import bisect
import collections

from texts import bytes_of, enum_of, holds, named, span_of
from words import joined

FOREVER = None


class Change:
    """One put or deletion of a key."""

    def __init__(self, at, revision, sub, key, value, lease, cause):
        self.at = at                # the number of its event, from 0
        self.revision, self.sub = revision, sub
        self.key, self.value = key, value   # without a value it is a deletion
        self.lease = lease
        self.cause = cause          # 'put', 'delete', 'expire' or 'revoke'
        self.gone = FOREVER         # the event by which the version was thrown away


class Lease:
    def __init__(self, number, ttl, at):
        self.number, self.ttl, self.since = number, ttl, at
        self.until, self.cause = FOREVER, ''
        self.renewed, self.keys = [], set()


class Watch:
    def __init__(self, number, words, span, filters, at):
        self.number, self.words, self.span, self.filters, self.since = number, words, span, filters, at
        self.until, self.cause = FOREVER, ''
        self.told = []              # (event, how many changes, least revision, greatest revision)
        self.waits = collections.deque()    # changes that it was not told yet
        self.behind = []            # [from event, to event]

    def is_for(self, change):
        kind = 'NODELETE' if change.value is None else 'NOPUT'
        return kind not in self.filters and holds(self.span, change.key)

    def notes(self, change, at):
        if not self.is_for(change):
            return
        if not self.waits:
            self.behind.append([at, FOREVER])
        self.waits.append(change)

    def is_told(self, at, count, least, most):
        self.told.append((at, count, least, most))
        while self.waits and self.waits[0].revision <= most:
            self.waits.popleft()
        if not self.waits and self.behind and self.behind[-1][1] is FOREVER:
            self.behind[-1][1] = at

    def ends(self, at, cause):
        self.until, self.cause = at, cause
        if self.behind and self.behind[-1][1] is FOREVER:
            self.behind[-1][1] = at


class Story:
    """All that is told of a script, event by event."""

    def __init__(self, events):
        self.events = events
        self.changes, self.revisions = [], []   # all, and the revision of each
        self.by_key = collections.defaultdict(list)
        self.live, self.names = {}, []          # the last put of each key that is there, and these keys in order
        self.leases, self.standing = [], {}     # all, and those that are granted
        self.watches, self.watching = [], {}    # all, and those that stand
        self.compactions = []                   # (event, revision)
        self.floor, self.kept = 0, {}           # what is kept of each key, and the keys of which some may go
        self.loose, self.number_kept = set(), 0
        self.versions = {}                      # from revision and sub to the change
        self.doubt = None
        for at, event in enumerate(events):
            self.sub = 0
            getattr(self, 'on_' + event.kind, self.on_nothing)(at, event)
            event.kept = self.number_kept

    def expects(self, holds_here, at):
        if not holds_here and self.doubt is None:
            self.doubt = at

    # ---- changes

    def changed(self, at, key, value, lease, cause):
        event = self.events[at]
        change = Change(at, event.revision, self.sub, key, value, lease, cause)
        self.sub += 1
        self.changes.append(change)
        self.revisions.append(change.revision)
        self.by_key[key].append(change)
        self.versions[change.revision, change.sub] = change
        self.kept.setdefault(key, []).append(change)
        if len(self.kept[key]) > 1 or value is None:
            self.loose.add(key)
        self.number_kept += 1
        event.keys.add(key)
        for watch in self.watching.values():
            watch.notes(change, at)
        if value is None:
            del self.live[key]
            self.names.pop(bisect.bisect_left(self.names, key))
        else:
            if key not in self.live:
                bisect.insort(self.names, key)
            self.live[key] = change
            if lease in self.standing:
                self.standing[lease].keys.add(key)

    def within(self, span):
        first = bisect.bisect_left(self.names, span[0])
        last = len(self.names) if span[1] is None else bisect.bisect_left(self.names, span[1])
        return self.names[first:last]

    def puts(self, at, body):
        key = body.bytes('key')
        before = self.live.get(key)
        value, lease = body.bytes('value'), body.number('lease')
        if body.truth('ignore_value') and before:
            value = before.value
        if body.truth('ignore_lease') and before:
            lease = before.lease
        self.changed(at, key, value, lease, 'put')

    def deletes(self, at, span, cause):
        keys = self.within(span)
        for key in keys:
            self.changed(at, key, None, 0, cause)
        return keys

    # ---- requests on keys

    def on_nothing(self, at, event):
        pass

    def on_put(self, at, event):
        if event.body:
            event.keys.add(event.body.bytes('key'))
            if not event.is_refused:
                self.puts(at, event.body)

    def on_range(self, at, event):
        if event.body:
            event.spans.append(event.body.span())

    def on_delete(self, at, event):
        if event.body:
            event.spans.append(event.body.span())
            if not event.is_refused:
                keys = self.deletes(at, event.body.span(), 'delete')
                self.expects(len(keys) == event.answer.number('deleted'), at)
                if keys and not event.answer.has('prev_kvs'):
                    event.told = 'deleted ' + some(keys)

    def on_txn(self, at, event):
        if event.body:
            self.spoken(event, event.body)
            if not event.is_refused:
                self.runs(at, event.body, event.answer)

    def spoken(self, event, body):
        """Notes all the keys that a transaction speaks of."""
        event.spans += [it.span() for it in body.messages('compare')]
        for operation in body.messages('success') + body.messages('failure'):
            event.keys |= {operation.message('request_put').bytes('key')} if operation.has('request_put') else set()
            event.spans += [operation.message(name).span() for name in ('request_range', 'request_delete_range') if operation.has(name)]
            if operation.has('request_txn'):
                self.spoken(event, operation.message('request_txn'))

    def runs(self, at, body, answer):
        """The operations of a transaction that ran, by its reply."""
        ran = body.messages('success' if answer.truth('succeeded') else 'failure')
        responses = answer.messages('responses')
        self.expects(len(ran) == len(responses), at)
        for operation, response in zip(ran, responses):
            if operation.has('request_put'):
                self.puts(at, operation.message('request_put'))
            elif operation.has('request_delete_range'):
                keys = self.deletes(at, operation.message('request_delete_range').span(), 'delete')
                self.expects(len(keys) == response.message('response_delete_range').number('deleted'), at)
            elif operation.has('request_txn'):
                self.runs(at, operation.message('request_txn'), response.message('response_txn'))

    # ---- leases

    def on_grant(self, at, event):
        if not event.is_refused:
            lease = Lease(event.answer.number('ID'), event.answer.number('TTL'), at)
            self.leases.append(lease)
            self.standing[lease.number] = lease

    def on_keepalive(self, at, event):
        lease = self.standing.get(event.body.number('ID')) if event.body else None
        if lease and not event.is_refused:
            lease.renewed.append(at)

    def on_revoke(self, at, event):
        if event.body and not event.is_refused:
            gone = self.lease_ends(at, event.body.number('ID'), 'revoke')
            event.told = 'ended' + (', deleted ' + some(gone) if gone else '')

    def on_expire(self, at, event):
        if event.reply.startswith('expired '):
            number = int(event.reply.split(' ')[1])
            gone = self.lease_ends(at, number, 'expire')
            event.told = 'lease %d ended%s' % (number, ', deleted ' + some(gone) if gone else '')

    def lease_ends(self, at, number, cause):
        lease = self.standing.pop(number, None)
        self.expects(lease is not None, at)
        gone = sorted(key for key in (lease.keys if lease else ()) if key in self.live and self.live[key].lease == number)
        for key in gone:
            self.changed(at, key, None, 0, cause)
        if lease:
            lease.until, lease.cause = at, cause
        return gone

    # ---- watches

    def on_watch(self, at, event):
        if event.is_refused or not event.body:
            return
        body = event.body.message('create_request')
        key = body.bytes('key') or b'\0'
        filters = body.get('filters')
        filters = {enum_of('filters', it) for it in filters} if isinstance(filters, list) else set()
        watch = Watch(len(self.watches) + 1, event.asked, span_of(key, body.bytes('range_end')), filters, at)
        event.spans.append(watch.span)
        event.told = 'watch %d is made' % watch.number
        start = body.number('start_revision')
        if start > 0:
            for change in self.changes[bisect.bisect_left(self.revisions, start):]:
                watch.notes(change, at)
        watch.start = start if start > 0 else event.revision + 1
        self.watches.append(watch)
        self.watching[watch.number] = watch

    def watch_of(self, event):
        return self.watching.get(int(event.order))

    def on_deliver(self, at, event):
        watch = self.watch_of(event)
        if not watch or event.answer is None:
            return
        event.spans.append(watch.span)
        result = event.answer.message('result')
        if result.truth('canceled'):
            watch.ends(at, 'cancelled')
            del self.watching[watch.number]
            return
        told = result.messages('events')
        revisions = [it.message('kv').number('mod_revision') for it in told]
        event.keys |= {bytes_of(it.message('kv').get('key')) for it in told}
        if revisions:
            event.told_span = min(revisions), max(revisions)
            watch.is_told(at, len(told), *event.told_span)

    def on_close(self, at, event):
        watch = self.watch_of(event)
        if watch and event.reply == 'closed':
            watch.ends(at, 'closed')
            del self.watching[watch.number]

    # ---- what is thrown away

    def on_compact(self, at, event):
        if event.is_refused or not event.body:
            return
        self.floor = event.body.number('revision')
        self.compactions.append((at, self.floor))
        if event.body.truth('physical'):
            for key in list(self.loose):
                self.trims(at, key)

    def trims(self, at, key):
        """Throws away of a key what no question from the last compaction on needs."""
        kept = self.kept[key]
        below = [change for change in kept if change.revision <= self.floor]
        stays = [change for change in kept if change.revision > self.floor]
        if below:
            last = below[-1]
            if last.revision == self.floor:
                # What the key held before the compaction's own revision is told as the value before.
                stays[:0] = below[-2:] if len(below) > 1 and below[-2].value is not None else [last]
            elif last.value is not None:
                stays.insert(0, last)
        for change in set(kept) - set(stays):
            change.gone = at
            self.number_kept -= 1
        self.kept[key] = stays
        if len(stays) < 2 and all(change.value is not None for change in stays):
            self.loose.discard(key)

    def on_trim(self, at, event):
        word, _, rest = event.reply.partition(' ')
        if word in ('removed', 'kept'):
            change = self.versions.get(tuple(map(int, rest.split('.'))))
            self.expects(change is not None and change.gone is FOREVER, at)
            if change is None:
                return
            event.keys.add(change.key)
            event.told = '%s %s: %s' % (event.reply, 'is thrown away' if word == 'removed' else 'is needed', version_words(change))
            if word == 'removed' and change.gone is FOREVER:
                change.gone = at
                self.kept[change.key].remove(change)
                self.number_kept -= 1
        elif word == 'done':
            count = int(rest.split(' ')[0])
            event.told = 'all trimmed: %d kept%s' % (count, ', unchecked for want of memory' if 'unchecked' in rest else '')
            self.expects(count == self.number_kept, at)

    def on_certify(self, at, event):
        kept = [tuple(map(int, line.split(' ')[1:3])) for line in event.reply.split('\n') if line.startswith(('put ', 'gone '))]
        event.told = 'floor %d: %d kept' % (self.floor, len(kept))
        self.expects(kept == sorted(place for place, change in self.versions.items() if change.gone is FOREVER), at)


def some(keys):
    return joined(map(named, keys))


def version_words(change):
    said = 'put %s = %s' % (named(change.key), named(change.value)) if change.value is not None else 'deletion of ' + named(change.key)
    return said
