"""A server of its own, two puts, a list of their prefix, and a watch of it. Python's standard library is all it needs."""
import base64
import json
import os
import subprocess
import urllib.request

PROGRAM = os.environ.get('ETCD_ONE', './etcd_one')


def b64(text):
    return base64.b64encode(text.encode()).decode()


def text(code):
    return base64.b64decode(code).decode()


def shown(kv):
    return text(kv['key']) + '=' + text(kv['value'])


def start():
    """A server on a free port, and its address."""
    server = subprocess.Popen([PROGRAM, 'serve', '--listen', '127.0.0.1:0'], stderr=subprocess.PIPE, text=True)
    for line in server.stderr:
        if line.startswith('listening on '):
            return server, line.split()[-1]
    raise SystemExit('the server ended with status %d' % server.wait())


def post(address, path, body):
    return urllib.request.urlopen('http://%s/v3/%s' % (address, path), json.dumps(body).encode())


def ask(address, path, **body):
    with post(address, path, body) as reply:
        return json.load(reply)


def watch(address, **asked):
    """The events of a watch, one after the other. Each line of the answer is a message."""
    with post(address, 'watch', {'create_request': asked}) as lines:
        for line in lines:
            yield from json.loads(line)['result'].get('events', [])


server, address = start()
try:
    for name, value in ('a', 'one'), ('b', 'two'):
        ask(address, 'kv/put', key=b64('/jobs/' + name), value=b64(value))
    jobs = {'key': b64('/jobs/'), 'range_end': b64('/jobs0')}     # the end of a prefix is its last byte, one more
    told = ask(address, 'kv/range', **jobs)
    print('listed', *map(shown, told['kvs']))
    events = watch(address, start_revision='2', **jobs)
    print('watched', *(shown(next(events)['kv']) for _ in told['kvs']))
    events.close()
finally:
    server.terminate()
    server.wait()
