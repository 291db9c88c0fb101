#!/usr/bin/env python3
"""The test of the controller beside it. It starts a store of its own on a free port, and ends it:

    examples/controller/test_controller.py

The store is ./etcd_one at the top, or what ETCD_ONE names. Each test has a fresh one.
"""
import os
import subprocess
import threading
import time
import unittest

from controller import JOBS, LOCK, Compacted, Controller, Store

TOP = os.path.dirname(os.path.dirname(os.path.dirname(os.path.abspath(__file__))))
PROGRAM = os.environ.get('ETCD_ONE', os.path.join(TOP, 'etcd_one'))


class TestController(unittest.TestCase):
    def setUp(self):
        words = [PROGRAM, 'serve', '--listen', '127.0.0.1:0', '--workers', '16']
        self.server = subprocess.Popen(words, stdin=subprocess.DEVNULL, stderr=subprocess.PIPE)
        # On first use lines of the proof come before.
        lines = iter(self.server.stderr.readline, b'')
        self.address = next(line.split()[-1].decode() for line in lines if line.startswith(b'listening on '))
        self.store = Store(self.address)
        self.controllers = []

    def tearDown(self):
        for controller in self.controllers:
            if not controller.stopped.is_set():
                controller.stop()
        self.store.close()
        self.server.terminate()
        self.server.wait(timeout=10)
        self.server.stderr.close()

    def start(self, name):
        controller = Controller(self.address, name, str.upper)
        threading.Thread(target=controller.run, daemon=True).start()
        self.controllers.append(controller)
        return controller

    def wait_for(self, key, value):
        end = time.monotonic() + 10
        while self.store.get(key) != value:
            self.assertLess(time.monotonic(), end, '%s is %r' % (key, self.store.get(key)))
            time.sleep(0.01)

    def test_jobs_before_and_behind_its_start(self):
        self.store.put('/jobs/a', 'one')
        self.start('first')
        self.wait_for('/done/a', 'ONE by first')
        self.store.put('/jobs/b', 'two')
        self.wait_for('/done/b', 'TWO by first')
        self.assertEqual(self.store.list('/jobs/')[1], [])

    def test_another_takes_over(self):
        first = self.start('first')
        self.wait_for('/lock/controller', 'first')
        self.start('second')
        self.store.put('/jobs/a', 'one')
        self.wait_for('/done/a', 'ONE by first')
        first.stop()
        self.wait_for('/lock/controller', 'second')
        self.store.put('/jobs/b', 'two')
        self.wait_for('/done/b', 'TWO by second')

    def test_another_takes_over_from_one_that_died(self):
        first = self.start('first')
        self.wait_for('/lock/controller', 'first')
        first.stop(politely=False)
        self.start('second')
        self.store.put('/jobs/a', 'one')
        self.wait_for('/done/a', 'ONE by second')

    def test_a_lease_that_ran_out(self):
        first = self.start('first')
        self.wait_for('/lock/controller', 'first')
        self.store.ask('lease/revoke', ID=first.lease)
        self.store.put('/jobs/a', 'one')
        self.wait_for('/done/a', 'ONE by first')
        self.assertEqual(self.store.get('/lock/controller'), 'first')

    def test_every_job_is_done_once(self):
        first, names = self.start('first'), ['job%03d' % number for number in range(200)]
        self.start('second')
        for name in names:
            self.store.put('/jobs/' + name, name)
            if name == names[100]:
                first.stop()
        self.wait_for('/done/' + names[-1], names[-1].upper() + ' by second')
        done = self.store.list('/done/')[1]
        self.assertEqual([key for key, _, _ in done], ['/done/' + name for name in names])
        _, jobs = self.store.list('/jobs/')
        self.assertEqual(jobs, [])
        told = self.store.ask('kv/range', key='L2RvbmUv', range_end='L2RvbmUw')
        self.assertEqual({kv['version'] for kv in told['kvs']}, {'1'})


class Interrupted(Controller):
    """A controller to which something happens between its first list of the jobs and its watch of them."""

    meanwhile = None

    def watching(self, key, end, start):
        if key == JOBS and self.meanwhile:
            happens, self.meanwhile = self.meanwhile, None
            happens()
        return super().watching(key, end, start)


class TestByHand(unittest.TestCase):
    """The test says when time passes, when a lease ends and when history is trimmed (`serve --control`), so no case waits for any of
    these: it is over as soon as what it asks for is there."""

    def setUp(self):
        words = [PROGRAM, 'serve', '--listen', '127.0.0.1:0', '--workers', '16', '--control']
        self.server = subprocess.Popen(words, stdin=subprocess.PIPE, stdout=subprocess.PIPE, stderr=subprocess.PIPE, text=True, bufsize=1)
        # On first use lines of the proof come before.
        lines = iter(self.server.stderr.readline, '')
        self.address = next(line.split()[-1] for line in lines if line.startswith('listening on '))
        self.store = Store(self.address)
        self.controllers = []

    def tearDown(self):
        for controller in self.controllers:
            controller.stop(politely=False)
        self.store.close()
        said, _ = self.server.communicate(timeout=10)       # the end of its standard input is its end
        self.assertRegex(said, r'closed at revision \d+\n')
        self.assertEqual(self.server.returncode, 0)

    def order(self, line):
        """The server's reply to a line."""
        print(line, file=self.server.stdin, flush=True)
        return self.server.stdout.readline().rstrip('\n')

    def start(self, controller):
        threading.Thread(target=controller.run, daemon=True).start()
        self.controllers.append(controller)
        return controller

    def sees(self, key, value):
        """Comes back once a key holds a value, or held it."""
        while True:
            revision, found = self.store.list(key)
            if (key, value) in [(one, held) for one, held, _ in found]:
                return
            try:
                for _, _, held, _ in self.store.watch(key, None, revision + 1):
                    if held == value:
                        return
            except Compacted:
                pass            # it is listed again

    def test_a_lease_that_ends(self):
        first = self.start(Controller(self.address, 'first', str.upper, seconds=10))
        self.sees(LOCK, 'first')
        first.stop(politely=False)
        self.assertEqual(self.order('AT 9999'), 'at 9999')
        self.assertEqual(self.order('EXPIRE'), 'nothing')
        self.start(Controller(self.address, 'second', str.upper, seconds=10))
        self.assertEqual(self.order('AT 10000'), 'at 10000')
        self.assertEqual(self.order('EXPIRE'), 'expired 1 revision 3')
        self.sees(LOCK, 'second')
        self.assertEqual(self.order('EXPIRE'), 'nothing')
        self.store.put(JOBS + 'a', 'one')
        self.sees('/done/a', 'ONE by second')

    def test_a_watcher_that_a_compaction_cancels(self):
        trimmed = []

        def meanwhile():
            self.store.put(JOBS + 'b', 'two')
            self.store.put(JOBS + 'c', 'three')
            revision, _ = self.store.list(JOBS)
            self.store.ask('kv/compaction', revision=str(revision))
            while not trimmed or not trimmed[-1].startswith('done '):
                trimmed.append(self.order('TRIM'))

        self.store.put(JOBS + 'a', 'one')
        controller = Interrupted(self.address, 'first', str.upper)
        controller.meanwhile = meanwhile
        self.start(controller)
        # Its watch is asked for a revision below the compaction, and what it missed is done all the same.
        self.sees('/done/c', 'THREE by first')
        self.assertEqual([key for key, _, _ in self.store.list('/done/')[1]], ['/done/a', '/done/b', '/done/c'])
        self.assertEqual(self.store.list(JOBS)[1], [])
        self.assertEqual(trimmed, ['removed 2.0', 'kept 3.0', 'kept 4.0', 'removed 4.1', 'kept 5.0', 'kept 6.0', 'done 4'])


if __name__ == '__main__':
    unittest.main()
