"""Bytes as text that a person reads, and the fields of a request's body as the gateway reads them."""
import base64
import binascii
import json
import re

# What stands without quotes: nothing that could be taken for the words around it.
PLAIN = re.compile(r'[\w/.:@%+#&*~^!?;-]+')
MOST = 60

# The numbers of an enum, in order.
ENUMS = {
    'sort_order': ['NONE', 'ASCEND', 'DESCEND'],
    'sort_target': ['KEY', 'VERSION', 'CREATE', 'MOD', 'VALUE'],
    'result': ['EQUAL', 'GREATER', 'LESS', 'NOT_EQUAL'],
    'target': ['VERSION', 'CREATE', 'MOD', 'VALUE', 'LEASE'],
    'filters': ['NOPUT', 'NODELETE'],
}


def text_of(data):
    """The bytes as text: what cannot be seen, or is no UTF-8, by its escape, and so a backslash."""
    shown = []
    for sign in data.decode('utf-8', 'surrogateescape'):
        code = ord(sign)
        if 0xDC80 <= code <= 0xDCFF:
            shown.append('\\x%02x' % (code - 0xDC00))
        elif sign == '\\':
            shown.append('\\\\')
        elif sign.isprintable():
            shown.append(sign)
        else:
            shown.append({'\n': '\\n', '\r': '\\r', '\t': '\\t', '\0': '\\0'}.get(sign) or ('\\x%02x' if code < 128 else '\\u{%x}') % code)
    return ''.join(shown)


def named(data, most=MOST):
    """The bytes as a word among others: in quotes where that is needed, and cut where they are many."""
    text = text_of(data)
    rest = ' (%d bytes)' % len(data) if len(text) > most else ''
    if rest:
        text = text[:most - 1] + '…'
    if PLAIN.fullmatch(text):
        return text + rest
    return '"%s"%s' % (text.replace('"', '\\"'), rest)


def bytes_of(value):
    """The bytes of a field in base64, as the gateway reads them; nothing where it is no base64."""
    if not isinstance(value, str):
        return b''
    try:
        standard = value.replace('-', '+').replace('_', '/')
        return base64.b64decode(standard + '=' * (-len(standard) % 4))
    except (binascii.Error, ValueError):
        return b''


def camel(name):
    return re.sub('_(.)', lambda found: found[1].upper(), name)


class Body:
    """A message of a request or a reply. A field that is left out, or is null, is at its default."""

    def __init__(self, fields):
        self.fields = fields if isinstance(fields, dict) else {}

    def get(self, name):
        if name in self.fields:
            return self.fields[name]
        return self.fields.get(camel(name))

    def bytes(self, name):
        return bytes_of(self.get(name))

    def number(self, name):
        try:
            return int(self.get(name) or 0)
        except (TypeError, ValueError):
            return 0

    def truth(self, name):
        return self.get(name) is True

    def enum(self, name):
        return enum_of(name, self.get(name))

    def message(self, name):
        return Body(self.get(name))

    def messages(self, name):
        found = self.get(name)
        return [Body(it) for it in found] if isinstance(found, list) else []

    def has(self, name):
        return self.get(name) is not None

    def span(self):
        return span_of(self.bytes('key'), self.bytes('range_end'))


def enum_of(name, value):
    names = ENUMS[name]
    if value in names:
        return value
    return names[value] if isinstance(value, int) and 0 <= value < len(names) else names[0]


def body_of(text):
    """The message that a text is, or None where it is none. No text at all is an empty one."""
    if not text:
        return Body({})
    try:
        fields = json.loads(text)
    except (ValueError, RecursionError):
        return None
    return Body(fields) if isinstance(fields, dict) else None


def span_of(key, end):
    """The keys from the first on up to the second, without it; None is the end of all keys."""
    if not end:
        return key, key + b'\0'
    return key, None if end == b'\0' else end


def holds(span, key):
    return span[0] <= key and (span[1] is None or key < span[1])


def prefix_end(key):
    """The end of the keys that begin so."""
    cut = key.rstrip(b'\xff')
    return cut[:-1] + bytes([cut[-1] + 1]) if cut else None


def span_words(span):
    """A range of keys in words."""
    key, end = span
    if end is None:
        return 'all keys' if key in (b'', b'\0') else 'all keys from %s on' % named(key)
    if end == key + b'\0':
        return named(key)
    if key and end == prefix_end(key):
        return 'all of %s*' % named(key)
    return '%s up to %s' % (named(key), named(end))
