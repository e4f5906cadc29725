"""Answers browsers: GET and HEAD alone, on 127.0.0.1 alone, and nothing that a page elsewhere could read."""
import collections
import json
import select
import socket
import threading
import time
import urllib.parse
from pathlib import Path

from .exports import HEADS, metrics_of, table_of
from .frame import page_of, state_words
from .replica import ReplicaEnded

MOST_BYTES = 8192       # of a request
SECONDS = 10            # in which a request has to come, and an answer to go
MOST_AT_ONCE = 64       # connections
MOST_STREAMS = 16       # of them for events
AGAIN = 3000            # milliseconds after which a browser without a stream asks again
NAMES = ('127.0.0.1', 'localhost')
HERE = Path(__file__).resolve().parent
TYPES = {'html': 'text/html', 'json': 'application/json', 'csv': 'text/csv', 'sheet': 'text/plain', 'text': 'text/plain', 'css': 'text/css', 'js': 'text/javascript',
         'svg': 'image/svg+xml', 'metrics': 'text/plain; version=0.0.4', 'events': 'text/event-stream'}
POLICY = ("default-src 'none'; style-src 'self'; script-src 'self'; img-src 'self'; connect-src 'self'; form-action 'self'; base-uri 'none'; "
          "frame-ancestors 'none'")
HEADERS = [('Content-Security-Policy', POLICY), ('X-Content-Type-Options', 'nosniff'), ('X-Frame-Options', 'DENY'), ('Referrer-Policy', 'no-referrer'),
           ('Cross-Origin-Resource-Policy', 'same-origin'), ('Cross-Origin-Opener-Policy', 'same-origin'), ('Cache-Control', 'no-store'), ('Connection', 'close')]
REASONS = {200: 'OK', 400: 'Bad Request', 403: 'Forbidden', 404: 'Not Found', 405: 'Method Not Allowed', 408: 'Request Timeout', 421: 'Misdirected Request',
           431: 'Request Header Fields Too Large', 500: 'Internal Server Error'}

Request = collections.namedtuple('Request', 'method path query headers')
Answer = collections.namedtuple('Answer', 'status type body')


class Refused(Exception):
    """A request that isn't answered by a page: its status, and why."""


def read_request(line):
    """The request that comes on a connection, or None if nothing comes."""
    data, end = b'', time.monotonic() + SECONDS
    while b'\r\n\r\n' not in data:
        line.settimeout(max(0.01, end - time.monotonic()))
        try:
            piece = line.recv(4096)
        except TimeoutError:
            raise Refused(408, 'The request did not come whole in time.') from None
        if not piece:
            if data:
                raise Refused(400, 'The request is not whole.')
            return None
        data += piece
        if len(data) > MOST_BYTES:
            raise Refused(431, f'A request has at most {MOST_BYTES:,} bytes.')
    return request_of(data.partition(b'\r\n\r\n')[0].decode('latin-1').split('\r\n'))


def request_of(lines):
    words = lines[0].split(' ')
    if len(words) != 3 or words[2] not in ('HTTP/1.1', 'HTTP/1.0') or not words[1].startswith('/'):
        raise Refused(400, 'This is no request for a page.')
    headers = {}
    for text in lines[1:]:
        name, colon, value = text.partition(':')
        if not colon or name != name.strip() or name.lower() in headers:
            raise Refused(400, 'A header is wrong, or comes twice.')
        headers[name.lower()] = value.strip()
    path, _, query = words[1].partition('?')
    return Request(words[0], path, query, headers)


def check(request):
    """Refuses what may come from a page elsewhere, and what would change something."""
    host = request.headers.get('host', '')
    name, _, port = host.partition(':')
    if name not in NAMES or port and not port.isdigit():
        raise Refused(421, f'This page is that of {" or ".join(NAMES)} alone.')
    if request.headers.get('origin', f'http://{host}') != f'http://{host}':
        raise Refused(403, 'A page elsewhere may not read this one.')
    site, mode = request.headers.get('sec-fetch-site', 'none'), request.headers.get('sec-fetch-mode', 'navigate')
    if site not in ('none', 'same-origin') and mode != 'navigate':
        raise Refused(403, 'A page elsewhere may not read this one.')
    if request.method not in ('GET', 'HEAD'):
        raise Refused(405, 'This page changes nothing: GET and HEAD alone.')
    if request.headers.get('content-length', '0') != '0' or 'transfer-encoding' in request.headers:
        raise Refused(400, 'A request has no body.')


class Server:
    def __init__(self, following, shown, clock, port):
        self.following, self.shown, self.clock = following, shown, clock
        self.places, self.streams = threading.Semaphore(MOST_AT_ONCE), threading.Semaphore(MOST_STREAMS)
        # The only files that are served, read once: no path of a request reaches a file.
        self.files = {f'/{name}': (name.rpartition('.')[2], (HERE / name).read_bytes()) for name in ('page.css', 'page.js', 'icon.svg')}
        self.listener = socket.create_server(('127.0.0.1', port), backlog=64)
        self.port = self.listener.getsockname()[1]

    def serve(self):
        while True:
            try:
                line, _ = self.listener.accept()
            except OSError:
                time.sleep(0.1)         # too many files are open, or it was gone again
                continue
            if self.places.acquire(blocking=False):
                threading.Thread(target=self.talk, args=(line,), daemon=True).start()
            else:
                line.close()

    def talk(self, line):
        with line:
            try:
                self.answer(line)
            except OSError:
                pass            # it is gone, or doesn't read
            finally:
                self.places.release()

    def answer(self, line):
        is_head = False
        try:
            request = read_request(line)
            if request is None:
                return
            is_head = request.method == 'HEAD'
            check(request)
            line.settimeout(SECONDS)
            if request.path == '/events':
                line.sendall(head_of(200, 'events', []))
                if not is_head:
                    self.stream(line)
                return
            answer = self.page(request)
        except Refused as refused:
            answer = Answer(refused.args[0], 'text', refused.args[1] + '\n')
        except Exception as error:          # a fault of the page is said, and ends no one else's
            answer = Answer(500, 'text', f'This page failed: {type(error).__name__}: {error}\n')
        body = answer.body if isinstance(answer.body, bytes) else answer.body.encode()
        more = [('Allow', 'GET, HEAD')] if answer.status == 405 else []
        line.settimeout(SECONDS)
        line.sendall(head_of(answer.status, answer.type, [('Content-Length', len(body)), *more]) + (b'' if is_head else body))

    def page(self, request):
        path = urllib.parse.unquote(request.path, 'latin-1')
        if path in self.files:
            return Answer(200, *self.files[path])
        if path == '/metrics':
            return Answer(200, 'metrics', metrics_of(self.following))
        parts, form = parts_of(path)
        try:
            asked = dict(urllib.parse.parse_qsl(request.query, encoding='latin-1', max_num_fields=10))
        except ValueError:
            raise Refused(400, 'A query has ten fields at most.') from None
        if form == 'csv':
            asked['rows'] = None
        forms = {'csv': len(parts) == 1 and parts[0] in HEADS, 'sheet': len(parts) == 2 and parts[0] == 'sweeps'}
        values = self.values(parts, asked) if forms.get(form, True) else None
        if values is None:
            raise Refused(404, 'There is no such page.')
        if form == 'json':
            return Answer(200, 'json', json.dumps({name: value for name, value in values.items() if not name.startswith('_')}, indent=1) + '\n')
        if form == 'csv':
            return Answer(200, 'csv', table_of(parts[0], values['rows']))
        if form == 'sheet':
            return Answer(200, 'sheet', '\n'.join(values['sheet']) + '\n')
        return Answer(200, 'html', page_of(values, parts, request.query, self.clock.name))

    def values(self, parts, asked):
        try:
            return self.shown.answer(parts, asked)
        except ReplicaEnded as fault:
            self.following.stop(fault)
            return self.shown.answer(parts, asked)

    def stream(self, line):
        """Says how it goes each second, and at once if something has changed. If there are enough streams, it is said once, and asked for again soon."""
        is_kept = self.streams.acquire(blocking=False)
        try:
            if not is_kept:
                line.sendall(b'retry: %d\n' % AGAIN)
            seen, last = -1, 0
            while not is_closed(line):
                change = self.following.wait(seen, 0.25)
                if change != seen or time.monotonic() - last >= 1:
                    seen, last = change, time.monotonic()
                    line.sendall(self.event(change))
                    if not is_kept:
                        return
                    time.sleep(0.05)        # many changes at once are one event
        finally:
            if is_kept:
                self.streams.release()

    def event(self, change):
        state = self.following.state()
        said = dict(change=change, level=state['level'], word=state['word'], text=state['text'], facts=state_words(state)[1])
        return f'data: {json.dumps(said)}\n\n'.encode()


def is_closed(line):
    """Whether the other end has gone: it has nothing more to say."""
    return bool(select.select([line], [], [], 0)[0]) and not line.recv(4096)


def parts_of(path):
    """The parts of a path, and the form that is asked for by its ending."""
    stem, dot, form = path.rpartition('.')
    if not dot or form not in ('json', 'csv', 'sheet'):
        stem, form = path, 'html'
    parts = stem.strip('/').split('/')
    return ['overview'] if parts == [''] else parts, form


def head_of(status, form, headers):
    kind = TYPES[form] if form == 'svg' else f'{TYPES[form]}; charset=utf-8'
    lines = [f'HTTP/1.1 {status} {REASONS[status]}', f'Content-Type: {kind}', *(f'{name}: {value}' for name, value in [*headers, *HEADERS])]
    return ('\r\n'.join(lines) + '\r\n\r\n').encode()
