"""A headless Chromium, driven through its DevTools pipe by the standard library alone."""
import base64
import fcntl
import json
import os
import select
import shutil
import subprocess
import tempfile

PATIENCE = 300
NAMES = ('chromium', 'chromium-browser', 'google-chrome')


def find():
    """The browser's path, or None."""
    debian = '/usr/lib/chromium/chromium'    # without Debian's script around it, which handles of pipes don't survive
    if os.path.exists(debian):
        return debian
    return next((path for path in map(shutil.which, NAMES) if path), None)


class Browser:
    def __init__(self, width=1440, height=900):
        self.home = tempfile.mkdtemp(prefix='page-')
        self.log = open(os.path.join(self.home, 'log'), 'w', encoding='utf-8')
        self.count, self.rest, self.events, self.session = 0, b'', [], None
        self.start(width, height)
        target = self.call('Target.createTarget', url='about:blank')['targetId']
        self.session = self.call('Target.attachToTarget', targetId=target, flatten=True)['sessionId']
        for domain in ('Page', 'Runtime', 'Log', 'Network'):
            self.call(domain + '.enable')
        self.size(width, height)

    def start(self, width, height):
        # the browser reads from its handle 3 and writes to its handle 4; these are above both
        ends = [fcntl.fcntl(x, fcntl.F_DUPFD, 20) for x in (*os.pipe(), *os.pipe())]
        read, self.out, self.inp, write = ends
        script = f'exec 3<&{read} 4>&{write} {read}<&- {write}>&-; exec "$@"'
        options = ['--headless=new', '--no-sandbox', '--disable-gpu', '--disable-dev-shm-usage', '--remote-debugging-pipe',
                   f'--user-data-dir={self.home}', '--no-first-run', '--hide-scrollbars', '--renderer-process-limit=1',
                   '--disable-background-networking', '--disable-component-update', f'--window-size={width},{height}',
                   'about:blank']
        self.process = subprocess.Popen(['bash', '-c', script, 'x', find(), *options], pass_fds=(read, write),
                                        stderr=self.log, stdout=self.log)
        os.close(read)
        os.close(write)

    def message(self):
        while b'\0' not in self.rest:
            if not select.select([self.inp], [], [], PATIENCE)[0]:
                raise RuntimeError(f'the browser has said nothing for {PATIENCE} seconds')
            part = os.read(self.inp, 1 << 20)
            if not part:
                raise RuntimeError('the browser has gone')
            self.rest += part
        one, self.rest = self.rest.split(b'\0', 1)
        return json.loads(one)

    def call(self, method, **params):
        self.count += 1
        message = {'id': self.count, 'method': method, 'params': params}
        if self.session:
            message['sessionId'] = self.session
        os.write(self.out, json.dumps(message).encode() + b'\0')
        while True:
            got = self.message()
            if got.get('id') == self.count:
                if 'error' in got:
                    raise RuntimeError(f'{method}: {got["error"]}')
                return got['result']
            self.events.append(got)

    def size(self, width, height):
        self.call('Emulation.setDeviceMetricsOverride', width=width, height=height, deviceScaleFactor=1, mobile=False)

    def theme(self, theme):
        self.call('Emulation.setEmulatedMedia', media='', features=[{'name': 'prefers-color-scheme', 'value': theme}])

    def open(self, path, fragment=''):
        self.call('Page.navigate', url='about:blank')
        self.events.clear()
        self.call('Page.navigate', url='file://' + os.path.abspath(path) + fragment)
        while not any(event.get('method') == 'Page.loadEventFired' for event in self.events):
            self.events.append(self.message())
        while not self.run("location.protocol === 'file:' && document.readyState === 'complete'"):
            pass

    def run(self, text):
        """What a script's text comes to in the page."""
        result = self.call('Runtime.evaluate', expression=text, returnByValue=True, awaitPromise=True)
        if 'exceptionDetails' in result:
            details = result['exceptionDetails']
            raise RuntimeError(details.get('exception', {}).get('description', details))
        return result['result'].get('value')

    def key(self, key):
        self.call('Input.dispatchKeyEvent', type='keyDown', key=key)
        self.call('Input.dispatchKeyEvent', type='keyUp', key=key)

    def shot(self, path):
        self.run('new Promise(done => setTimeout(done, 450))')
        with open(path, 'wb') as f:
            f.write(base64.b64decode(self.call('Page.captureScreenshot', format='png')['data']))

    def faults(self):
        """What went wrong in the page since it was opened."""
        out = []
        for event in self.events:
            method, params = event.get('method'), event.get('params', {})
            if method == 'Runtime.exceptionThrown':
                details = params['exceptionDetails']
                out.append(details.get('exception', {}).get('description') or details['text'])
            elif method == 'Log.entryAdded' and params['entry']['level'] == 'error':
                out.append(params['entry']['text'])
        return out

    def asked(self):
        """The addresses that the page asked for."""
        return [event['params']['request']['url'] for event in self.events
                if event.get('method') == 'Network.requestWillBeSent']

    def close(self):
        try:
            self.session = None
            self.call('Browser.close')
        except (RuntimeError, OSError):
            pass
        try:
            self.process.wait(10)
        except subprocess.TimeoutExpired:
            self.process.kill()
        shutil.rmtree(self.home, ignore_errors=True)
