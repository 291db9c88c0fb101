"""Requests and answers in words."""
from texts import body_of, bytes_of, named, span_of, span_words

SIGNS = {'EQUAL': '=', 'GREATER': '>', 'LESS': '<', 'NOT_EQUAL': '≠'}
MOST_ITEMS = 6
BY_PATH = {
    '/v3/kv/range': 'range', '/v3/kv/put': 'put', '/v3/kv/deleterange': 'delete', '/v3/kv/txn': 'txn',
    '/v3/kv/compaction': 'compact', '/v3/watch': 'watch', '/v3/lease/grant': 'grant',
    '/v3/lease/revoke': 'revoke', '/v3/kv/lease/revoke': 'revoke', '/v3/lease/keepalive': 'keepalive',
    '/v3/lease/timetolive': 'timetolive', '/v3/kv/lease/timetolive': 'timetolive',
    '/v3/lease/leases': 'leases', '/v3/kv/lease/leases': 'leases',
}


def joined(items, most=MOST_ITEMS):
    """Some items, and how many more there are."""
    items = list(items)
    rest = len(items) - most
    return ', '.join(items[:most]) + (', and %d more' % rest if rest > 0 else '')


def counted(number, word):
    return '%d %s%s' % (number, word, '' if number == 1 else 's')


def cut(text, most=120):
    return text if len(text) <= most else '%s… (%d bytes)' % (text[:most], len(text))


# ---- requests

def put_words(body):
    words = ['put ' + named(body.bytes('key'))]
    words[0] += ', value kept' if body.truth('ignore_value') else ' = ' + named(body.bytes('value'))
    if body.truth('ignore_lease'):
        words.append('lease kept')
    elif body.number('lease'):
        words.append('lease %d' % body.number('lease'))
    if body.truth('prev_kv'):
        words.append('tell the value before')
    return ', '.join(words)


def range_words(body):
    words = ['range ' + span_words(body.span())]
    if body.number('revision') > 0:
        words.append('at revision %d' % body.number('revision'))
    if body.number('limit'):
        words.append('limit %d' % body.number('limit'))
    order, target = body.enum('sort_order'), body.enum('sort_target')
    if order != 'NONE' or target != 'KEY':
        words.append('by %s%s' % (target.lower(), ' descending' if order == 'DESCEND' else ''))
    for part in ('mod', 'create'):
        least, most = body.number('min_%s_revision' % part), body.number('max_%s_revision' % part)
        if least or most:
            words.append('%s revision %s' % (part, ' and '.join(['≥ %d' % least] * bool(least) + ['≤ %d' % most] * bool(most))))
    words += [said for name, said in (('keys_only', 'keys only'), ('count_only', 'count only'), ('serializable', 'serializable'))
              if body.truth(name)]
    return ', '.join(words)


def delete_words(body):
    return 'delete ' + span_words(body.span()) + (', tell what was there' if body.truth('prev_kv') else '')


def compare_words(body):
    target = body.enum('target')
    field = {'VERSION': 'version', 'CREATE': 'create_revision', 'MOD': 'mod_revision', 'VALUE': 'value', 'LEASE': 'lease'}[target]
    wanted = named(body.bytes('value')) if target == 'VALUE' else '%d' % body.number(field)
    name = {'MOD': 'mod revision', 'CREATE': 'create revision'}.get(target, target.lower())
    return '%s of %s %s %s' % (name, span_words(body.span()), SIGNS[body.enum('result')], wanted)


def operation_words(body):
    for name, words in (('put', put_words), ('range', range_words), ('delete_range', delete_words), ('txn', txn_words)):
        if body.has('request_' + name):
            said = words(body.message('request_' + name))
            return '(%s)' % said if name == 'txn' else said
    return 'nothing'


def operations_words(bodies):
    return '; '.join(map(operation_words, bodies[:MOST_ITEMS])) + ('; and %d more' % (len(bodies) - MOST_ITEMS)) * (len(bodies) > MOST_ITEMS)


def txn_words(body):
    compares = body.messages('compare')
    words = 'txn'
    if compares:
        words += ' if ' + ' and '.join(map(compare_words, compares[:MOST_ITEMS])) + ' and more' * (len(compares) > MOST_ITEMS)
    words += ' then ' + (operations_words(body.messages('success')) or 'nothing')
    if body.messages('failure'):
        words += ' else ' + operations_words(body.messages('failure'))
    return words


def watch_words(body):
    body = body.message('create_request')
    words = ['watch ' + span_words(span_of(body.bytes('key') or b'\0', body.bytes('range_end')))]
    if body.number('start_revision') > 0:
        words.append('from revision %d on' % body.number('start_revision'))
    filters = body.get('filters')
    for filtered in filters if isinstance(filters, list) else []:
        words.append('no puts' if filtered in ('NOPUT', 0) else 'no deletes')
    if body.truth('prev_kv'):
        words.append('with values before')
    if body.number('watch_id'):
        words.append('watch_id %d' % body.number('watch_id'))
    return ', '.join(words)


REQUESTS = {
    'put': put_words, 'range': range_words, 'delete': delete_words, 'txn': txn_words, 'watch': watch_words,
    'compact': lambda body: 'compact at revision %d%s' % (body.number('revision'), ', physical' if body.truth('physical') else ''),
    'grant': lambda body: 'grant lease %s, %s' % (body.number('ID') or 'of a free ID', counted(body.number('TTL'), 'second')),
    'revoke': lambda body: 'revoke lease %d' % body.number('ID'),
    'keepalive': lambda body: 'keep lease %d alive' % body.number('ID'),
    'timetolive': lambda body: 'time to live of lease %d%s' % (body.number('ID'), ', with its keys' if body.truth('keys') else ''),
    'leases': lambda body: 'list the leases',
}
ORDERS = {'AT': 'clock', 'EXPIRE': 'expire', 'DELIVER': 'deliver', 'CLOSE': 'close', 'TRIM': 'trim', 'CERTIFY': 'certify'}


def order_words(kind, number):
    return {'clock': 'the clock goes to %s ms' % number, 'expire': 'end the lease that is due first', 'deliver': 'deliver to watch ' + number,
            'close': 'close watch ' + number, 'trim': 'one step of trimming', 'certify': 'certify what is kept'}[kind]


# ---- answers

def pair_words(body):
    return '%s = %s' % (named(body.bytes('key')), named(body.bytes('value')))


def found_words(body):
    """What a Range found. A value that is empty is not told from one that was not asked for."""
    pairs, count = body.messages('kvs'), body.number('count')
    if not pairs:
        return counted(count, 'key') if count else 'nothing'
    said = joined('%s (mod %d)' % (pair_words(it) if it.has('value') else named(it.bytes('key')), it.number('mod_revision')) for it in pairs)
    return said + (', of %d' % count if count != len(pairs) else '') + (', there is more' if body.truth('more') else '')


def put_told(body):
    return 'done' + (', before: ' + pair_words(body.message('prev_kv')) if body.has('prev_kv') else '')


def delete_told(body):
    before = joined(map(pair_words, body.messages('prev_kvs')))
    return 'deleted %s%s' % (counted(body.number('deleted'), 'key'), ', before: ' + before if before else '')


def response_told(body):
    for name, told in (('put', put_told), ('range', found_words), ('delete_range', delete_told), ('txn', txn_told)):
        if body.has('response_' + name):
            said = told(body.message('response_' + name))
            return '(%s)' % said if name == 'txn' else said
    return 'nothing'


def txn_told(body):
    responses = body.messages('responses')
    said = '; '.join(map(response_told, responses[:MOST_ITEMS])) + '; and more' * (len(responses) > MOST_ITEMS)
    return ('succeeded' if body.truth('succeeded') else 'did not succeed') + (': ' + said if said else '')


def happening_words(body):
    """An event that a watch is told."""
    pair, before = body.message('kv'), body.message('prev_kv')
    said = 'delete ' + named(pair.bytes('key')) if body.get('type') == 'DELETE' else 'put ' + pair_words(pair)
    said += ' (%d)' % pair.number('mod_revision')
    return said + (', before: ' + named(before.bytes('value')) if body.has('prev_kv') else '')


def message_words(body):
    body = body.message('result')
    if body.truth('canceled'):
        return 'cancelled: compacted up to revision %d' % body.number('compact_revision')
    return 'told ' + joined(map(happening_words, body.messages('events')))


def left_told(body):
    if body.number('TTL') < 0:
        return 'there is no such lease'
    keys = body.get('keys')
    said = '%d of %s left' % (body.number('TTL'), counted(body.number('grantedTTL'), 'second'))
    return said + (', keys ' + joined(named(bytes_of(key)) for key in keys) if isinstance(keys, list) and keys else '')


def alive_told(body):
    body = body.message('result')
    return counted(body.number('TTL'), 'second') + ' again' if body.number('TTL') else 'there is no such lease'


def leases_told(body):
    leases = body.messages('leases')
    return counted(len(leases), 'lease') + (': ' + joined('%d' % it.number('ID') for it in leases) if leases else '')


ANSWERS = {
    'put': put_told, 'range': found_words, 'delete': delete_told, 'txn': txn_told, 'compact': lambda body: 'done',
    'watch': lambda body: 'made', 'grant': lambda body: 'lease %d, %s' % (body.number('ID'), counted(body.number('TTL'), 'second')),
    'revoke': lambda body: 'done', 'keepalive': alive_told, 'timetolive': left_told, 'leases': leases_told,
}


def request_words(kind, path, text):
    """What a request asks for, and its body where that can be read."""
    body = body_of(text)
    if kind not in REQUESTS or body is None:
        return 'POST ' + cut(path + ' ' + text), None
    return REQUESTS[kind](body), body


def answer_words(kind, status, body):
    """What a request was answered."""
    if status != '200':
        return 'refused (%s): %s' % (status, body.get('error'))
    return ANSWERS[kind](body) if kind in ANSWERS else 'done'
