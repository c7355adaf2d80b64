"""A real browser for tests: Chromium without a window, spoken to through two pipes (the DevTools protocol)."""
import base64
import contextlib
import json
import os
import shutil
import subprocess
import tempfile

NAMES = ('chromium', 'chromium-browser', 'google-chrome')
OPTIONS = ['--headless=new', '--no-sandbox', '--disable-gpu', '--hide-scrollbars', '--no-first-run', '--disable-extensions',
           '--disable-background-networking', '--remote-debugging-pipe']

# where there is no network this is known soon
QUICKLY = ['-o', 'Acquire::Retries=0', '-o', 'Acquire::http::Timeout=20']


def path():
    """The path of a browser, or None."""
    return next(filter(None, map(shutil.which, NAMES)), None)


def install():
    """Installs Chromium from Debian's packages where there is none and that may be done; says what came of it."""
    if path() or os.environ.get('NO_BROWSER'):
        return
    words = ['apt-get', 'install', '-y', '--no-install-recommends', 'chromium']
    if os.geteuid() == 0 and shutil.which('apt-get'):
        print('no browser is there: apt-get installs chromium', flush=True)
        with contextlib.suppress(subprocess.TimeoutExpired):
            subprocess.run(words + QUICKLY, env=dict(os.environ, DEBIAN_FRONTEND='noninteractive'), stdin=subprocess.DEVNULL,
                           stdout=subprocess.DEVNULL, stderr=subprocess.DEVNULL, timeout=300, check=False)
    if not path():
        print(f'pages are NOT looked at in a browser: there is none, and it could not be installed; `{" ".join(words)}` does',
              flush=True)


class Browser:
    def __init__(self):
        self.room = tempfile.mkdtemp()
        theirs, self.to = os.pipe()
        self.come, ours = os.pipe()
        script = f'exec "$@" 3<&{theirs} 4>&{ours}'
        self.child = subprocess.Popen(['sh', '-c', script, 'sh', path(), *OPTIONS, f'--user-data-dir={self.room}'],
                                      pass_fds=(theirs, ours), stdout=subprocess.DEVNULL, stderr=subprocess.DEVNULL)
        os.close(theirs)
        os.close(ours)
        self.rest, self.count, self.session = b'', 0, None
        target = self.ask('Target.createTarget', url='about:blank')['targetId']
        self.session = self.ask('Target.attachToTarget', targetId=target, flatten=True)['sessionId']
        self.ask('Page.enable')
        self.size(1300, 850)

    def close(self):
        os.close(self.to)
        self.child.terminate()
        self.child.wait(30)
        os.close(self.come)
        shutil.rmtree(self.room, ignore_errors=True)

    def message(self):
        while b'\0' not in self.rest:
            more = os.read(self.come, 1 << 20)
            if not more:
                raise AssertionError('the browser has ended')
            self.rest += more
        one, _, self.rest = self.rest.partition(b'\0')
        return json.loads(one)

    def ask(self, method, **parameters):
        self.count += 1
        asked = {'id': self.count, 'method': method, 'params': parameters}
        if self.session:
            asked['sessionId'] = self.session
        os.write(self.to, json.dumps(asked).encode() + b'\0')
        while True:
            told = self.message()
            if told.get('id') == self.count:
                if 'error' in told:
                    raise AssertionError(f'{method}: {told["error"]}')
                return told['result']

    # ---- what a user does

    def open(self, file):
        """Opens a file; returns when it is loaded."""
        self.ask('Page.navigate', url=f'file://{file}')
        while self.value('document.readyState') != 'complete' or self.value('location.pathname') != str(file):
            pass

    def value(self, expression):
        """What an expression is, in the page; a promise is waited for."""
        told = self.ask('Runtime.evaluate', expression=expression, returnByValue=True, awaitPromise=True)
        if 'exceptionDetails' in told:
            raise AssertionError(told['exceptionDetails'])
        return told['result'].get('value')

    def size(self, width, height):
        self.ask('Emulation.setDeviceMetricsOverride', width=width, height=height, deviceScaleFactor=1, mobile=False)

    def dark(self, is_dark):
        self.ask('Emulation.setEmulatedMedia',
                 features=[{'name': 'prefers-color-scheme', 'value': 'dark' if is_dark else 'light'}])

    def point(self, x, y):
        self.ask('Input.dispatchMouseEvent', type='mouseMoved', x=x, y=y)
        self.settle()

    def click(self, x, y):
        for kind in ('mousePressed', 'mouseReleased'):
            self.ask('Input.dispatchMouseEvent', type=kind, x=x, y=y, button='left', clickCount=1)
        self.settle()

    def press(self, key):
        for kind in ('keyDown', 'keyUp'):
            text = key if len(key) == 1 else '\r' if key == 'Enter' else ''
            self.ask('Input.dispatchKeyEvent', type=kind, key=key, **({'text': text} if kind == 'keyDown' and text else {}))
        self.settle()

    def write(self, text):
        self.ask('Input.insertText', text=text)

    def settle(self):
        """Until the next frame is drawn."""
        self.value('new Promise(done => requestAnimationFrame(() => requestAnimationFrame(done))).then(() => 1)')

    def picture(self, file):
        content = base64.b64decode(self.ask('Page.captureScreenshot')['data'])
        with open(file, 'wb') as picture:
            picture.write(content)

    def paper(self):
        """The page as it is printed."""
        return base64.b64decode(self.ask('Page.printToPDF', preferCSSPageSize=True)['data'])
