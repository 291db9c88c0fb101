"""A script and what a program answers it: an event a line."""
import re
import subprocess

from texts import Body, body_of
from words import BY_PATH, ORDERS, answer_words, cut, message_words, order_words, request_words

LINE = re.compile(r'(AT|DELIVER|CLOSE) (\d+)|(EXPIRE|TRIM|CERTIFY)')
MOST_BYTES = 1_700_000


class Wrong(Exception):
    """The script is not answered."""


class Event:
    """One line of a script, and its reply."""

    def __init__(self, number, line, reply):
        self.number = number            # of the line, from 1
        self.line = line                # as text
        self.reply = reply              # as text; that of CERTIFY has several lines
        self.kind = 'bad'
        self.asked = cut(line)
        self.told = cut(reply)
        self.is_refused = False
        self.path = self.order = ''
        self.body = None                # of the request
        self.answer = None              # of the reply, where it is a message
        self.clock = 0                  # when it is done, in milliseconds
        self.revision = 1               # of the store, behind it
        self.told_span = None           # the revisions of which a watch is told by it
        self.keys, self.spans = set(), []   # what it speaks of
        self.kept = 0                   # how many versions are kept, behind it
        self.read()

    def read(self):
        if self.line.startswith('POST '):
            self.read_request()
            return
        found = LINE.fullmatch(self.line)
        if found:
            word = found[1] or found[3]
            self.kind, self.order = ORDERS[word], found[2] or ''
            self.asked = order_words(self.kind, self.order.lstrip('0') or '0')
            self.is_refused = self.reply in ('out of memory', 'no watch', 'revisions are spent')
            if self.kind == 'deliver' and self.reply.startswith('{'):
                self.answer = body_of(self.reply)
                self.told = message_words(self.answer)
            if self.kind == 'clock' and self.reply == 'at ' + self.order.lstrip('0'):
                self.told = 'done'
        else:
            self.asked, self.is_refused = 'no event: ' + cut(self.line), True

    def read_request(self):
        self.path, _, text_asked = self.line[5:].partition(' ')
        self.kind = BY_PATH.get(self.path, 'bad')
        self.asked, self.body = request_words(self.kind, self.path, text_asked)
        status, _, text = self.reply.partition(' ')
        self.answer = body_of(text) or Body({})
        self.is_refused = status != '200'
        if self.answer.get('error') and str(self.answer.get('error')).startswith('gateway: '):
            self.asked, self.body = 'POST ' + cut(self.path + ' ' + text_asked), None
        if self.reply:
            self.told = answer_words(self.kind, status, self.answer)

    def header_revision(self):
        """The revision that the reply names, or None."""
        found = re.match(r'expired -?\d+ revision (\d+)$', self.reply)
        if found:
            return int(found[1])
        if self.answer is None:
            return None
        answer = self.answer.message('result') if self.answer.has('result') else self.answer
        return answer.message('header').number('revision') or None


def text_of_line(data):
    return data.decode('utf-8', 'backslashreplace')


def lines_of(script):
    """The lines of a script, without their ends, and whether it ends within a line."""
    lines = script.split(b'\n')
    is_cut = lines.pop() if lines[-1] == b'' else None
    if is_cut is None:
        return [it[:-1] if it.endswith(b'\r') else it for it in lines[:-1]] + lines[-1:], True
    return [it[:-1] if it.endswith(b'\r') else it for it in lines], False


def answers(script, words):
    """What a program answers a script."""
    try:
        ran = subprocess.run([*words, 'replay'], input=script, stdout=subprocess.PIPE, check=False)
    except OSError as failure:
        raise Wrong('%s does not start: %s' % (words[0], failure.strerror)) from failure
    if ran.returncode:
        raise Wrong('%s replay ended with status %d' % (' '.join(words), ran.returncode))
    return ran.stdout


def replies_of(lines, told):
    """The reply to each line. Of CERTIFY that is two parts of several lines, each up to a line `end`."""
    left = iter(told.split(b'\n')[:-1])
    for line in lines:
        reply = [next(left, None)]
        if line == b'CERTIFY' and (reply[0] or b'').startswith(b'dump '):
            for part in left:
                reply.append(part)
                if reply.count(b'end') == 2:
                    break
        yield None if reply[0] is None else b'\n'.join(reply)


def events_of(script, words):
    """The events of a script, and what is to be noted of it."""
    lines, is_cut = lines_of(script)
    notes = []
    if not lines:
        return [], ['The file is empty: there is no event.']
    if is_cut:
        notes.append('The file ends within line %d: where its writer was ended, that line may lack its end, and is no event that was made.' % len(lines))
    events, clock, revision = [], 0, 1
    for number, (line, reply) in enumerate(zip(lines, replies_of(lines, answers(script, words))), 1):
        if reply is None:
            raise Wrong('line %d has no reply' % number)
        event = Event(number, text_of_line(line), text_of_line(reply))
        if len(line) > MOST_BYTES:
            event.kind, event.is_refused = 'bad', True
        if event.reply.startswith('at '):
            clock = int(event.reply[3:])
        revision = event.header_revision() or revision
        event.clock, event.revision = clock, revision
        events.append(event)
    return events, notes
