"""A headless Chromium, driven by its DevTools protocol over a websocket of our own: Python's library has none."""
import base64
import json
import os
import shutil
import socket
import struct
import subprocess
import tempfile
import time
import urllib.request
from pathlib import Path

PROGRAMS = ('chromium', 'chromium-browser', 'google-chrome')
SECONDS = 30


class Socket:
    """A client's side of a websocket."""

    def __init__(self, address):
        host, _, path = address.removeprefix('ws://').partition('/')
        name, _, port = host.partition(':')
        self.line, self.rest = socket.create_connection((name, int(port)), timeout=SECONDS), b''
        key = base64.b64encode(os.urandom(16)).decode()
        self.line.sendall(f'GET /{path} HTTP/1.1\r\nHost: {host}\r\nUpgrade: websocket\r\nConnection: Upgrade\r\nSec-WebSocket-Key: {key}\r\nSec-WebSocket-Version: 13\r\n\r\n'.encode())
        while b'\r\n\r\n' not in self.rest:
            self.rest += self.line.recv(4096)
        self.rest = self.rest.partition(b'\r\n\r\n')[2]

    def send(self, text):
        data, mask = text.encode(), os.urandom(4)
        size = bytes([0x80 | len(data)]) if len(data) < 126 else b'\xfe' + struct.pack('>H', len(data)) if len(data) < 65536 else b'\xff' + struct.pack('>Q', len(data))
        stream = (mask * (len(data) // 4 + 1))[:len(data)]
        self.line.sendall(b'\x81' + size + mask + (int.from_bytes(data, 'big') ^ int.from_bytes(stream, 'big')).to_bytes(len(data), 'big'))

    def take(self, count):
        while len(self.rest) < count:
            piece = self.line.recv(1 << 18)
            if not piece:
                raise ConnectionError('the browser has closed')
            self.rest += piece
        data, self.rest = self.rest[:count], self.rest[count:]
        return data

    def receive(self):
        """The next whole text."""
        text = b''
        while True:
            first, size = self.take(2)
            size &= 0x7f
            size = struct.unpack('>H', self.take(2))[0] if size == 126 else struct.unpack('>Q', self.take(8))[0] if size == 127 else size
            text += self.take(size)
            if first & 0x80 and first & 0x0f in (0, 1):
                return text.decode()


class Tab:
    """A page of the browser: what it is asked, and what it says meanwhile."""

    def __init__(self, address):
        self.line, self.count, self.faults = Socket(address), 0, []
        for domain in ('Page', 'Runtime', 'Log', 'Network'):
            self.do(f'{domain}.enable')

    def do(self, method, **words):
        self.count += 1
        self.line.send(json.dumps(dict(id=self.count, method=method, params=words)))
        while True:
            said = json.loads(self.line.receive())
            self.note(said)
            if said.get('id') == self.count:
                if 'error' in said:
                    raise RuntimeError(f'{method}: {said["error"]}')
                return said['result']

    def note(self, said):
        """Keeps what the browser's console says."""
        words = said.get('params', {})
        match said.get('method'):
            case 'Runtime.exceptionThrown':
                self.faults.append(words['exceptionDetails'].get('exception', {}).get('description', words['exceptionDetails']['text']))
            case 'Runtime.consoleAPICalled' if words['type'] in ('error', 'warning', 'assert'):
                self.faults.append(f'console: {words["args"]}')
            case 'Log.entryAdded' if words['entry']['level'] in ('error', 'warning'):
                self.faults.append(f'{words["entry"]["text"]} {words["entry"].get("url", "")}')

    def run(self, script):
        """The value of a script."""
        told = self.do('Runtime.evaluate', expression=script, awaitPromise=True, returnByValue=True)
        if 'exceptionDetails' in told:
            raise RuntimeError(f'{script[:80]}: {told["exceptionDetails"].get("exception", {}).get("description")}')
        return told['result'].get('value')

    def open(self, address):
        """Goes to an address: the seconds until the page was laid out."""
        since = time.monotonic()
        told = self.do('Page.navigate', url=address)
        if told.get('errorText'):
            raise RuntimeError(f'{address}: {told["errorText"]}')
        self.until('document.readyState === "complete"')
        self.run('new Promise(done => requestAnimationFrame(() => setTimeout(done, 0)))')
        return time.monotonic() - since

    def until(self, script, seconds=SECONDS):
        """Waits until a script's value is true: the seconds that it took, or None if it doesn't come in time."""
        since = time.monotonic()
        while time.monotonic() - since < seconds:
            try:
                if self.run(script):
                    return time.monotonic() - since
            except RuntimeError:
                pass            # the page is being left
            time.sleep(0.02)
        return None

    def size(self, wide, high, is_dark=False, is_print=False):
        self.do('Emulation.setDeviceMetricsOverride', width=wide, height=high, deviceScaleFactor=1, mobile=False)
        self.do('Emulation.setEmulatedMedia', media='print' if is_print else '', features=[dict(name='prefers-color-scheme', value='dark' if is_dark else 'light')])

    def press(self, key):
        """A key, as a person presses it."""
        names = {'Tab': 9, 'Enter': 13, 'Escape': 27}
        words = dict(key=key, windowsVirtualKeyCode=names.get(key, ord(key.upper()[0])), **({'text': '\r'} if key == 'Enter' else {} if key in names else {'text': key}))
        self.do('Input.dispatchKeyEvent', type='keyDown', **words)
        self.do('Input.dispatchKeyEvent', type='keyUp', **words)

    def type(self, text):
        self.do('Input.insertText', text=text)

    def picture(self, path, is_whole=False):
        data = self.do('Page.captureScreenshot', format='png', captureBeyondViewport=is_whole)['data']
        Path(path).write_bytes(base64.b64decode(data))


class Browser:
    def __init__(self):
        program = next((path for name in PROGRAMS if (path := shutil.which(name))), None)
        if program is None:
            raise SystemExit('no Chromium is installed: apt-get install chromium')
        self.folder = tempfile.mkdtemp(prefix='browser-')
        words = [program, '--headless=new', '--no-sandbox', '--disable-gpu', '--remote-debugging-port=0', f'--user-data-dir={self.folder}', '--no-first-run',
                 '--disable-background-networking', '--disable-component-update', '--hide-scrollbars', '--force-color-profile=srgb', 'about:blank']
        self.child = subprocess.Popen(words, stdin=subprocess.DEVNULL, stdout=subprocess.DEVNULL, stderr=subprocess.DEVNULL, start_new_session=True)
        place, end = Path(self.folder) / 'DevToolsActivePort', time.monotonic() + SECONDS
        while not place.exists() or not place.read_text().strip():
            if time.monotonic() > end or self.child.poll() is not None:
                raise SystemExit('Chromium did not start')
            time.sleep(0.05)
        self.port = int(place.read_text().split()[0])

    def tab(self):
        """A new page."""
        request = urllib.request.Request(f'http://127.0.0.1:{self.port}/json/new?about:blank', method='PUT')
        return Tab(json.load(urllib.request.urlopen(request))['webSocketDebuggerUrl'])

    def end(self):
        self.child.terminate()
        try:
            self.child.wait(10)
        except subprocess.TimeoutExpired:
            self.child.kill()
            self.child.wait()
        shutil.rmtree(self.folder, ignore_errors=True)
