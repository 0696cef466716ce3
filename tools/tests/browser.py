"""A browser without a window, led by the DevTools protocol over two pipes (`chromium --remote-debugging-pipe`), so that tests see a page as
its reader does: with keys, sizes, colours and a selection."""
import json
import os
import select
import shutil
import subprocess
import tempfile
import time

CHROMIUM = shutil.which('chromium')
PATIENCE = 60       # seconds that an answer of the browser may take


class Fault(Exception):
    """What the browser answered in place of a result."""


class Browser:
    """One page of a browser of its own, which is started with these further words."""

    def __init__(self, *more):
        self.profile = tempfile.TemporaryDirectory()
        to_read, self.to = os.pipe()
        self.of, to_write = os.pipe()
        words = [CHROMIUM, '--headless=new', '--no-sandbox', '--disable-gpu', '--no-first-run', '--remote-debugging-pipe',
                 '--user-data-dir=' + self.profile.name, *more, 'about:blank']
        self.child = subprocess.Popen(['bash', '-c', 'exec "$@" 3<&%d 4>&%d' % (to_read, to_write), 'chromium', *words],
                                      pass_fds=(to_read, to_write), stdout=subprocess.DEVNULL, stderr=subprocess.DEVNULL)
        os.close(to_read)
        os.close(to_write)
        self.number, self.rest, self.session, self.log = 0, b'', None, []
        target = self.asks('Target.createTarget', url='about:blank')['targetId']
        self.session = self.asks('Target.attachToTarget', targetId=target, flatten=True)['sessionId']
        for domain in ('Page', 'Runtime', 'Log'):
            self.asks(domain + '.enable')

    def over(self):
        self.child.kill()
        self.child.wait()
        os.close(self.to)
        os.close(self.of)
        self.profile.cleanup()

    def message(self):
        """The next message of the browser."""
        end = time.monotonic() + PATIENCE
        while b'\0' not in self.rest:
            if not select.select([self.of], [], [], max(0, end - time.monotonic()))[0]:
                raise Fault('the browser says nothing')
            piece = os.read(self.of, 1 << 20)
            if not piece:
                raise Fault('the browser has ended')
            self.rest += piece
        text, _, self.rest = self.rest.partition(b'\0')
        return json.loads(text)

    def asks(self, method, **params):
        """The result of a command. What the page logs meanwhile, as a breach of its policy, is kept."""
        self.number += 1
        command = {'id': self.number, 'method': method, 'params': params}
        if self.session:
            command['sessionId'] = self.session
        text = json.dumps(command).encode() + b'\0'
        while text:
            text = text[os.write(self.to, text):]
        while True:
            message = self.message()
            if message.get('method') in ('Log.entryAdded', 'Runtime.exceptionThrown'):
                self.log.append(message['params'])
            if message.get('id') == self.number:
                if 'error' in message:
                    raise Fault('%s: %s' % (method, message['error']))
                return message['result']

    def of_page(self, expression):
        """The value of an expression in the page; a promise is waited for."""
        said = self.asks('Runtime.evaluate', expression=expression, returnByValue=True, awaitPromise=True)
        if 'exceptionDetails' in said:
            raise Fault(str(said['exceptionDetails'].get('exception', said['exceptionDetails'])))
        return said['result'].get('value')

    def goes_to(self, address):
        self.asks('Page.navigate', url=address)

    def looks(self, width, height=800, scheme='light'):
        """The size of the window, in pixels of the page, and the system's colours."""
        self.asks('Emulation.setDeviceMetricsOverride', width=width, height=height, deviceScaleFactor=1, mobile=width < 500)
        self.asks('Emulation.setEmulatedMedia', features=[{'name': 'prefers-color-scheme', 'value': scheme}])

    def presses(self, key, code=None, number=0):
        """A key, down and up."""
        text = {'Enter': '\r', ' ': ' '}.get(key)
        down = {'type': 'keyDown' if text else 'rawKeyDown', 'key': key, 'code': code or key, 'windowsVirtualKeyCode': number}
        self.asks('Input.dispatchKeyEvent', **down, **({'text': text} if text else {}))
        self.asks('Input.dispatchKeyEvent', **{**down, 'type': 'keyUp'})

    def types(self, text):
        self.asks('Input.insertText', text=text)

    def waits_for(self, expression, what, seconds=PATIENCE):
        """Until an expression is true."""
        end = time.monotonic() + seconds
        while not self.of_page(expression):
            if time.monotonic() > end:
                raise AssertionError('waited in vain for %s: %s' % (what, self.of_page('document.body.innerText.slice(0, 600)')))
            time.sleep(0.1)
