"""A Chromium without a screen, told what to do over a pipe, for the tests of a page."""
import base64
import json
import os
import select
import shutil
import subprocess
import tempfile
import time

MOST_WAIT = 30


def found():
    """The browser's path, or None: Debian's package is `chromium`."""
    return shutil.which('chromium') or shutil.which('chromium-browser')


class Browser:
    """One page. Without a network: each request beside the page's own file fails, and is noted in `asked`."""

    def __init__(self, width=1440, height=900):
        self.folder = tempfile.mkdtemp(prefix='browser-')
        told, tell = os.pipe(), os.pipe()
        words = [found(), '--headless=new', '--no-sandbox', '--disable-gpu', '--disable-dev-shm-usage', '--hide-scrollbars', '--remote-debugging-pipe', '--no-first-run',
                 '--disable-background-networking', '--disable-component-update', '--disable-sync', '--disable-extensions', '--window-size=%d,%d' % (width, height),
                 '--user-data-dir=' + self.folder]
        # The browser reads from 3 and writes to 4.
        self.process = subprocess.Popen(['sh', '-c', 'exec 3<&%d 4>&%d; exec "$@"' % (tell[0], told[1]), 'sh', *words], pass_fds=(tell[0], told[1]),
                                        env={**os.environ, 'HOME': self.folder}, stdin=subprocess.DEVNULL, stdout=subprocess.DEVNULL, stderr=subprocess.DEVNULL)
        os.close(tell[0])
        os.close(told[1])
        self.tell, self.told = tell[1], told[0]
        self.number, self.rest, self.asked, self.errors, self.session = 0, b'', [], [], None
        target = self.do('Target.createTarget', url='about:blank')['targetId']
        self.session = self.do('Target.attachToTarget', targetId=target, flatten=True)['sessionId']
        for part in ('Page', 'Runtime', 'Network', 'Log'):
            self.do(part + '.enable')
        self.do('Emulation.setDeviceMetricsOverride', width=width, height=height, deviceScaleFactor=1, mobile=False)

    def __enter__(self):
        return self

    def __exit__(self, *_):
        self.process.terminate()
        self.process.wait()
        os.close(self.tell)
        os.close(self.told)
        shutil.rmtree(self.folder, ignore_errors=True)

    def message(self, until):
        """The next message of the browser."""
        while b'\0' not in self.rest:
            if not select.select([self.told], [], [], max(0, until - time.monotonic()))[0]:
                raise TimeoutError('the browser says nothing')
            more = os.read(self.told, 1 << 20)
            if not more:
                raise EOFError('the browser has ended')
            self.rest += more
        message, self.rest = self.rest.split(b'\0', 1)
        message = json.loads(message)
        if message.get('method') == 'Network.requestWillBeSent':
            self.asked.append(message['params']['request']['url'])
        if message.get('method') == 'Runtime.exceptionThrown':
            self.errors.append(message['params']['exceptionDetails'].get('exception', {}).get('description', 'an exception'))
        if message.get('method') == 'Log.entryAdded' and message['params']['entry']['level'] == 'error':
            self.errors.append(message['params']['entry']['text'])
        return message

    def do(self, method, **given):
        self.number += 1
        message = {'id': self.number, 'method': method, 'params': given}
        if self.session:
            message['sessionId'] = self.session
        os.write(self.tell, json.dumps(message).encode() + b'\0')
        until = time.monotonic() + MOST_WAIT
        while True:
            reply = self.message(until)
            if reply.get('id') == self.number:
                if 'error' in reply:
                    raise RuntimeError('%s: %s' % (method, reply['error']['message']))
                return reply['result']

    def value(self, words):
        """What an expression of the page is worth."""
        told = self.do('Runtime.evaluate', expression=words, returnByValue=True, awaitPromise=True)
        if 'exceptionDetails' in told:
            raise RuntimeError('%s: %s' % (words, told['exceptionDetails'].get('exception', {}).get('description')))
        return told['result'].get('value')

    def open(self, path, place=''):
        """Opens a file, and waits until its script is done; gives how many seconds that took."""
        start = time.monotonic()
        self.do('Page.navigate', url='about:blank')
        self.do('Page.navigate', url='file://' + path + place)
        while time.monotonic() - start < MOST_WAIT:
            if self.value("document.readyState === 'complete' && document.body.dataset.ready === 'yes'"):
                # What is drawn next is on the screen.
                self.value('new Promise((done) => requestAnimationFrame(() => setTimeout(done, 0)))')
                return time.monotonic() - start
            if self.errors:
                break
            time.sleep(0.02)
        raise RuntimeError('%s does not open: %s' % (path, self.errors))

    def click(self, x, y):
        for kind in ('mouseMoved', 'mousePressed', 'mouseReleased'):
            self.do('Input.dispatchMouseEvent', type=kind, x=x, y=y, button='left', clickCount=1)

    def click_on(self, words):
        """A click in the middle of an element."""
        x, y = self.value('(() => { const it = (%s).getBoundingClientRect(); return [it.x + it.width / 2, it.y + it.height / 2]; })()' % words)
        self.click(x, y)

    def type(self, text):
        self.do('Input.insertText', text=text)

    def press(self, key):
        for kind in ('keyDown', 'keyUp'):
            self.do('Input.dispatchKeyEvent', type=kind, key=key, code=key)

    def picture(self, path):
        with open(path, 'wb') as file:
            file.write(base64.b64decode(self.do('Page.captureScreenshot', format='png')['data']))
