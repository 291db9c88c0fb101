"""The program with allocations refused, and what its replies tell: for the scripts tests/allocations..."""
import argparse
import glob
import importlib.machinery
import importlib.util
import json
import mmap
import os
import struct
import subprocess

TOP = os.path.dirname(os.path.dirname(os.path.abspath(__file__)))
PROGRAM = os.path.join(TOP, 'crates/etcd_one/out/etcd_one')
ENGINE = os.path.join(TOP, 'crates/engine_script')
NO_MEMORY = 'etcdserver: out of memory'
LOST = 'etcdserver: answer lost, the change stands'
UNCHECKED = ' unchecked'
LEASE_CHANGES = ('/v3/lease/grant', '/v3/lease/revoke', '/v3/lease/keepalive')
COMPACTION = '/v3/kv/compaction'
WAYS = ('alone', 'from')


class Wrong(Exception):
    """What a program does is not what it may do."""


def expect(holds, what):
    if not holds:
        raise Wrong(what)


def words_of(description):
    """The words of the command line: another program than the proved one may be named."""
    words = argparse.ArgumentParser(description=description)
    words.add_argument('--binary', help='another program than the proved one')
    return words


def proved(binary):
    """The program to run: the proved one, which is built first, or another one."""
    if binary is None:
        subprocess.check_call([os.path.join(TOP, 'etcd_one'), 'replay'], stdin=subprocess.DEVNULL)
    return binary or PROGRAM


def program_of(description):
    """The program to run."""
    return proved(words_of(description).parse_args().binary)


def programs_of(description):
    """The program to run, and the one for tests alone that makes a script's events through an engine."""
    words = words_of(description)
    words.add_argument('--engine', help='another program for the engine than the proved one')
    given = words.parse_args()
    return proved(given.binary), given.engine or engine_built()


def engine_built():
    """The program of crates/engine_script, proved and built where that was never done or a source has changed since."""
    built, mark = (os.path.join(ENGINE, 'out', name) for name in ('engine_script', 'proved'))
    sources = [os.path.join(TOP, 'crates.txt'), *(file for folder in ('src', 'specs', 'proofs')
                                                  for file in glob.glob(os.path.join(TOP, 'crates/*', folder, '**'), recursive=True))]
    if not os.path.exists(built) or not os.path.exists(mark) or os.path.getmtime(mark) < max(map(os.path.getmtime, sources)):
        subprocess.check_call([os.path.join(TOP, 'prove'), 'engine_script'])
    return built


def script(name):
    """A script of tests/ as a module."""
    loader = importlib.machinery.SourceFileLoader(name, os.path.join(TOP, 'tests', name))
    module = importlib.util.module_from_spec(importlib.util.spec_from_loader(name, loader))
    loader.exec_module(module)
    return module


def refuser(folder):
    """The library that refuses, built with the kit's compiler."""
    rt = os.path.realpath(subprocess.check_output(['which', 'rt'], text=True).strip())
    clang = os.path.join(os.path.dirname(os.path.dirname(rt)), 'toolchain/bin/clang')
    library = os.path.join(folder, 'refuse_allocation.so')
    subprocess.check_call([clang, '-O1', '-shared', '-fPIC', '-nostdlib', '-fuse-ld=lld', '-o', library,
                           os.path.join(TOP, 'tests/refuse_allocation.c')])
    return library


class Memory:
    """The memory of one run: it refuses the allocation of one number, from 1, `alone`, or each `from` it on, and none for 0."""

    def __init__(self, library, way='alone', number=0):
        self.library = library
        self.file = os.memfd_create('refusals')
        os.ftruncate(self.file, mmap.PAGESIZE)
        self.page = mmap.mmap(self.file, mmap.PAGESIZE)
        struct.pack_into('2i', self.page, 4, *(number if way == each else 0 for each in WAYS))

    def __enter__(self):
        return self

    def __exit__(self, *_):
        self.page.close()
        os.close(self.file)

    def start(self, words, **streams):
        environment = dict(os.environ, LD_PRELOAD=self.library, REFUSALS=str(self.file))
        return subprocess.Popen(words, env=environment, pass_fds=[self.file], **streams)

    def asked(self):
        """How many allocations were asked for."""
        return struct.unpack_from('i', self.page, 0)[0]

    def refused(self):
        """How many of them were refused."""
        return struct.unpack_from('i', self.page, 12)[0]

    def comes_back(self):
        """From now on none is refused, but for one that is refused alone."""
        struct.pack_into('i', self.page, 8, 0)


# ---- what replies tell

def error_of(reply):
    """The error that a reply names, and None for any other reply."""
    if reply == 'out of memory':
        return NO_MEMORY
    status, _, body = reply.partition(' ')
    return json.loads(body).get('error') if status.isdigit() and status != '200' else None


def message_of(reply):
    """The message of an accepted request's reply, and None for any other reply."""
    status, _, body = reply.partition(' ')
    if status != '200':
        return None
    message = json.loads(body)
    return message.get('result', message)


def revision_of(reply):
    """The revision that a reply tells, and None where it tells none."""
    if reply.startswith('expired '):
        return int(reply.split()[-1])
    message = message_of(reply)
    return int(message['header']['revision']) if message else None


def last_revision(replies):
    """The last revision that replies tell."""
    told = [revision for revision in map(revision_of, replies) if revision is not None]
    return told[-1] if told else 1


def changes(line, replies, at):
    """Whether the line of this reply raises the revision, makes a watch, changes a lease, or is an accepted Compact."""
    message = message_of(replies[at])
    if message is None:
        return False
    path = line.split(' ')[1]
    if path in ('/v3/watch', COMPACTION):
        return True
    if path in LEASE_CHANGES:
        return path != '/v3/lease/keepalive' or 'TTL' in message
    return revision_of(replies[at]) > last_revision(replies[:at])
