"""One page of a run, which needs nothing beside it: its data, its style and its script stand within it.

Keys and values are data: the page's script makes text of them alone, never markup, and its policy lets no other script run, and nothing
come from the net.
"""
import base64
import bisect
import hashlib
import json
import os
import zlib

from texts import text_of

HERE = os.path.dirname(os.path.abspath(__file__))
MOST_PLAIN = 20_000     # bytes of a request or reply that stand in the page as they are; more are packed
SCRIPTS = ['data.js', 'timeline.js', 'lanes.js', 'list.js', 'detail.js', 'start.js']


def text_from(name):
    with open(os.path.join(HERE, name), encoding='utf-8') as file:
        return file.read()


def number(value):
    """A number that the page's script can hold, or its text."""
    return value if abs(value) < 2 ** 53 else str(value)


def packed(text):
    """A text, or where it is long what it is packed to: the page unpacks it when it is asked for."""
    if len(text) <= MOST_PLAIN:
        return text
    return {'size': len(text), 'packed': base64.b64encode(zlib.compress(text.encode(), 6)).decode()}


def until(at):
    return -1 if at is None else at


class Keys:
    """The keys of a run in their order, each by its place."""

    def __init__(self, story):
        names = set(story.by_key)
        for event in story.events:
            names |= event.keys
        names.discard(b'')
        self.names = sorted(names)
        self.places = {name: place for place, name in enumerate(self.names)}

    def place(self, key):
        return self.places[key]

    def bounds(self, span):
        """The places from the first to behind the last key of a range."""
        return [bisect.bisect_left(self.names, span[0]), len(self.names) if span[1] is None else bisect.bisect_left(self.names, span[1])]


def events_of(story, keys):
    """A column for each part of the events."""
    events = story.events
    return {
        'kind': [it.kind for it in events],
        'clock': [number(it.clock) for it in events],
        'revision': [number(it.revision) for it in events],
        'refused': [int(it.is_refused) for it in events],
        'asked': [it.asked for it in events],
        'told': [it.told for it in events],
        'line': [packed(it.line) for it in events],
        'reply': [packed(it.reply) for it in events],
        'kept': [it.kept for it in events],
        'about': [it.told_span or 0 for it in events],
        'keys': [sorted(keys.place(key) for key in it.keys if key) for it in events],
        'spans': [[keys.bounds(span) for span in it.spans] for it in events],
    }


def lanes_of(story, keys):
    return {
        'keys': [[[it.at, it.cause, '' if it.value is None else text_of(it.value), until(it.gone)] for it in story.by_key.get(name, [])]
                 for name in keys.names],
        'leases': [{'id': str(it.number), 'ttl': it.ttl, 'since': it.since, 'until': until(it.until), 'cause': it.cause, 'renewed': it.renewed,
                    'keys': sorted(map(keys.place, it.keys))} for it in story.leases],
        'watches': [{'number': it.number, 'words': it.words, 'since': it.since, 'until': until(it.until), 'cause': it.cause, 'told': it.told,
                     'behind': [[since, until(end)] for since, end in it.behind], 'span': keys.bounds(it.span)} for it in story.watches],
        'compactions': [[at, number(revision)] for at, revision in story.compactions],
    }


def page_of(name, story, notes):
    keys = Keys(story)
    data = {'name': name, 'notes': notes, 'keys': [text_of(it) for it in keys.names], 'events': events_of(story, keys), 'lanes': lanes_of(story, keys)}
    script = "'use strict';\n" + '\n'.join(text_from(it) for it in SCRIPTS)
    code = base64.b64encode(hashlib.sha256(script.encode()).digest()).decode()
    # Only ASCII, and no `<`: so nothing in it ends the element that it stands in.
    text = json.dumps(data, separators=(',', ':')).replace('<', '\\u003c')
    parts = {'@POLICY@': "default-src 'none'; style-src 'unsafe-inline'; script-src 'sha256-%s'" % code,
             '@STYLE@': text_from('page.css'), '@DATA@': text, '@SCRIPT@': script}
    page = text_from('page.html')
    # One after the other in their order, so that none is looked for in what another one holds.
    made = []
    for mark, part in parts.items():
        before, page = page.split(mark)
        made += [before, part]
    return ''.join(made) + page
