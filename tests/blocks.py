"""The commands and blocks of a page, run as they are written, in a copy of the repository.

In the copy `./etcd_one` is used for the first time by each of them: `./prove` there writes lines as a proof does and puts the built program into its
place. `rt try` there runs that program (tests/unproved has the real one), and `./check` does nothing, since it is what runs this. Of a
command that serves it is seen that it listens; a watch that goes on for ever is ended once it was made; a program of bench/, tests/ or tools/ that is only named is there. Where this may be, all runs in a network of its own, so
that the port that the pages name is free.
"""
import ctypes
import fcntl
import os
import re
import shutil
import signal
import socket
import struct
import subprocess
import time

MOST_WAIT = 120
COMMAND = re.compile(r'(\./etcd_one|\./check|tools/show|python3|node|go run|java|printf|curl|rt version|(bench|tests)/\w+)(?= |\n|$)')
NAMED = re.compile(r'(bench|tests|tools)/\w+$')     # a program, without what it is given
# What a page says of these words: one line on standard error, and status 2. A certificate that is empty is unreadable.
STATUS = {'./etcd_one --help': 2, './etcd_one check': 2}
PROVE = '''#!/bin/sh
echo 'etcd_one: proving the program, 4 processes at once; about 2400 s' >&2
echo 'etcd_one: proving kv_model (1 of 30), 3 s so far, about 2300 s left: 127.0.0.1:99' >&2
mkdir -p crates/etcd_one/out && cp '%s' crates/etcd_one/out/etcd_one && touch crates/etcd_one/out/proved
'''
RT = '''#!/bin/sh
if [ "$1" = try ]; then shift 2; exec '%s' "$@"; fi
exec '%s' "$@"
'''


class Wrong(Exception):
    """A page says what is not so."""


class Left_out(Exception):
    """What a command needs is not there."""


def own_network():
    """A network of this process's own, with loopback; without the right to that, the machine's."""
    if ctypes.CDLL(None).unshare(0x40000000) != 0:
        return
    with socket.socket() as any_socket:
        # SIOCSIFFLAGS of lo: up, and running.
        fcntl.ioctl(any_socket, 0x8914, struct.pack('16sh14x', b'lo', 0x41))


def parts(page):
    """The blocks and the commands of a page in their order: each a kind, its text, and the text behind it."""
    with open(page, encoding='utf-8') as file:
        text = file.read()
    found = re.compile(r'(?ms)^```(\w*)\n(.*?)^```|(?<=\n\n)((?:    [^\n]*\n|\n(?=    ))+)')
    here = 0
    for block in found.finditer(text):
        yield from inline(text[here:block.start()])
        here = block.end()
        if block[3]:
            yield 'indented', re.sub('(?m)^    ', '', block[3]), text[here:]
        else:
            yield block[1], block[2], text[here:]
    yield from inline(text[here:])


def inline(text):
    for span, _, said in re.findall(r'`([^`]+)`(?=( says| has to say) `([^`]+)`)?', text.replace('\n', ' ')):
        if COMMAND.match(span):
            yield 'command', span, said


class Room:
    """The copy."""

    def __init__(self, top, folder, binary):
        self.top, self.folder, self.binary = top, os.path.join(folder, 'copy'), binary
        shutil.copytree(top, self.folder, symlinks=True, ignore=shutil.ignore_patterns('out', '.git', '__pycache__'))
        tools = os.path.join(folder, 'bin')
        os.mkdir(tools)
        self.write(os.path.join(self.folder, 'prove'), PROVE % binary)
        self.write(os.path.join(self.folder, 'check'), '#!/bin/sh\n')
        self.write(os.path.join(tools, 'rt'), RT % (binary, shutil.which('rt') or '/bin/false'))
        if not self.has(['python3', '-c', 'import pytest']) and self.has(['/usr/bin/python3', '-c', 'import pytest']):
            os.symlink('/usr/bin/python3', os.path.join(tools, 'python3'))
        self.world = {**os.environ, 'PATH': tools + ':' + os.environ['PATH'], 'TMPDIR': folder, 'PYTHONDONTWRITEBYTECODE': '1', 'GOCACHE': os.path.join(folder, 'cache')}
        self.world.pop('ETCD_ONE', None)
        git = ['git', '-c', 'user.name=pages', '-c', 'user.email=pages@localhost']
        for words in (['init', '-q'], ['add', '-A'], ['commit', '-q', '-m', 'as it is']):
            subprocess.run([*git, *words], cwd=self.folder, check=True, stdout=subprocess.DEVNULL, stderr=subprocess.DEVNULL)
        self.server = None

    @staticmethod
    def write(path, text):
        with open(path, 'w', encoding='utf-8') as file:
            file.write(text)
        os.chmod(path, 0o755)

    @staticmethod
    def has(words):
        try:
            return subprocess.run(words, stdout=subprocess.DEVNULL, stderr=subprocess.DEVNULL, check=False).returncode == 0
        except OSError:
            return False

    def is_new(self):
        shutil.rmtree(os.path.join(self.folder, 'crates/etcd_one/out'), ignore_errors=True)

    def start(self, words, **more):
        return subprocess.Popen(words, cwd=self.folder, env=self.world, stdout=subprocess.PIPE, stderr=subprocess.PIPE, text=True, start_new_session=True, **more)

    def end(self, process):
        try:
            os.killpg(process.pid, signal.SIGTERM)
        except ProcessLookupError:
            pass
        return process.communicate(timeout=MOST_WAIT)

    def serve(self, command):
        """Starts a server, and waits until it listens."""
        server = self.start(['bash', '-c', 'exec ' + command], stdin=subprocess.PIPE)
        for line in server.stderr:
            if line.startswith('listening on '):
                return server
        raise Wrong('%s: it ends with status %d before it listens' % (command, server.wait()))

    def run(self, script, status=0, stdin=''):
        """What a script of the shell writes."""
        process = self.start(['bash', '-e', '-c', script], stdin=subprocess.PIPE)
        try:
            out, err = process.communicate(stdin, timeout=MOST_WAIT)
        except subprocess.TimeoutExpired:
            self.end(process)
            raise Wrong('it does not end: ' + script) from None
        if process.returncode != status:
            raise Wrong('status %d, not %d, of: %s\n%s' % (process.returncode, status, script, (out + err)[-2000:]))
        return out

    def run_watch(self, script):
        """A script whose last line is a watch that goes on."""
        process = self.start(['bash', '-e', '-c', script], stdin=subprocess.DEVNULL)
        until, out = time.monotonic() + MOST_WAIT, ''
        for line in process.stdout:
            out += line
            if '"created":true' in line or time.monotonic() > until:
                break
        self.end(process)
        if '"created":true' not in out:
            raise Wrong('no watch is made: %s\n%s' % (script, out[-2000:]))
        return out


# ---- what a part says, and whether it is so

def needs(script):
    for tool in ('curl', 'node', 'go', 'java'):
        if re.search(r'(?m)(^|[(] ?cd .*&& |\n)%s ' % tool, script) and not shutil.which(tool):
            raise Left_out(tool)
    if '-m pytest' in script and not any(Room.has([it, '-c', 'import pytest']) for it in ('python3', '/usr/bin/python3')):
        raise Left_out('pytest')


def command(room, text, said=''):
    text = text.split('  #')[0].strip().replace(' FILE', ' examples/first.script')
    needs(text)
    if NAMED.match(text):
        if not os.access(os.path.join(room.top, text), os.X_OK):
            raise Wrong('there is no program ' + text)
    elif ' serve' in text:
        room.end(room.serve(text))
    else:
        out = with_server(room, text, STATUS.get(text, 0))
        if said and out.strip() != said:
            raise Wrong('%s says %r' % (text, out))


def with_server(room, script, status=0):
    """Runs a script, beside a server where it asks one."""
    server = room.serve('./etcd_one serve --listen 127.0.0.1:2379') if '127.0.0.1:2379' in script or '$1"' in script and 'v3/' in script else None
    room.is_new()
    try:
        return room.run_watch(script) if '/v3/watch' in script else room.run(script, status)
    finally:
        if server:
            room.end(server)


def lines_of_script(room, text, rest):
    """Lines of a script, the replies among them, and the last reply where the page has it behind `answers`."""
    lines = text.strip().splitlines()
    wanted = [line for line in lines if re.match(r'\d{3} ', line)]
    replies = room.run('./etcd_one replay', stdin='\n'.join(line for line in lines if line not in wanted)).splitlines()
    said = re.match(r'\s*answers `([^`]+)`', rest)
    if replies[:len(wanted)] != wanted or said and replies[-1] != said[1] or 'bad line' in replies:
        raise Wrong('a script is answered %r' % replies[-5:])


def certificate(room, text, rest):
    """A certificate with notes beside it, and the verdicts that the page has behind it."""
    text = '\n'.join(re.split(r'\s{4,}', line)[0] for line in text.splitlines() if not line.startswith('   ')) + '\n'
    verdict = re.match(r'\s*`check` says `([^`]+)`', rest)
    expect_verdict(room, text, verdict[1])
    other = re.match(r'[^`]*`check` says `[^`]+`\. With `([^`]+)` in its place it says `([^`]+)`', rest)
    if other:
        words = other[1].rsplit(' ', 1)[0]
        expect_verdict(room, re.sub(r'(?m)^%s .*$' % re.escape(words), other[1], text), other[2])


def expect_verdict(room, text, wanted):
    said = room.run('./etcd_one check', 0 if wanted.startswith('least') else 1, text).strip()
    if said != wanted:
        raise Wrong('a certificate is judged %r, not %r' % (said, wanted))


def check(room, kind, text, rest):
    room.is_new()
    if kind == 'command':
        command(room, text, rest)
    elif kind == 'sh':
        needs(text)
        with_server(room, text)
        if 'cache' in text:
            room.run(text)     # with what the first time left
    elif kind == 'python':
        room.run("python3 - <<'END'\n%s\nEND" % text)
    elif kind == 'text':
        certificate(room, text, rest)
    elif kind == 'indented':
        lines = text.strip().splitlines()
        if all(COMMAND.match(line) for line in lines):
            for line in lines:
                room.is_new()
                command(room, line)
        elif re.match(r'(POST|AT|EXPIRE) ', lines[0]):
            lines_of_script(room, text, rest)
        else:
            raise Wrong('a block of no kind: ' + text[:200])
    else:
        raise Wrong('a block of no kind: %s %s' % (kind, text[:200]))


def wrong_parts(top, folder, binary, pages):
    """Runs all, each once; gives what is not so, what was left out, and how many there were."""
    own_network()
    room = Room(top, folder, binary)
    wrong, left_out, seen = [], set(), set()
    for page in pages:
        for kind, text, rest in parts(page):
            if (kind, text) in seen:
                continue
            seen.add((kind, text))
            try:
                check(room, kind, text, rest)
            except Left_out as tool:
                left_out.add(str(tool))
            except Wrong as said:
                wrong.append('%s: %s' % (os.path.relpath(page, top), said))
    return wrong, left_out, len(seen)
