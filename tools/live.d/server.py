"""The pages' side: a server on 127.0.0.1 that answers those who know its token."""

import contextlib
import hmac
import json
import os
import re
import secrets
import socket
import sys
import threading
import time
from http.server import BaseHTTPRequestHandler, ThreadingHTTPServer
from urllib.parse import parse_qs

from common import colours
from common.grid_text import projection_beside
from program import Ended
from session import NAME, NotSent

HOME = os.path.dirname(os.path.realpath(__file__))
HOST = '127.0.0.1'
MOST_BODY = 65_536
MOST_DRAINED = 4_194_304
MOST_CONNECTIONS = 16
MOST_LINES = 2_000
PATIENCE = 20  # seconds that a browser may let us wait
KINDS = {'.html': 'text/html; charset=utf-8', '.js': 'text/javascript; charset=utf-8', '.css': 'text/css; charset=utf-8'}
FILES = {'': 'page.html', **{name: name for name in sorted(os.listdir(HOME)) if os.path.splitext(name)[1] in KINDS}}
PLAIN, JSON, BYTES = 'text/plain; charset=utf-8', 'application/json', 'application/octet-stream'
SAFE = {
    'Content-Security-Policy': "default-src 'none'; script-src 'self'; style-src 'self'; connect-src 'self'; img-src 'self' data:; "
                               "base-uri 'none'; form-action 'none'; frame-ancestors 'none'",
    'X-Content-Type-Options': 'nosniff', 'Referrer-Policy': 'no-referrer', 'Cache-Control': 'no-store',
    'Cross-Origin-Resource-Policy': 'same-origin',
}


class Wrong(Exception):
    """A request that isn't served: its status, and why."""

    def __init__(self, status, sentence):
        super().__init__(sentence)
        self.status, self.sentence = status, sentence


class Server(ThreadingHTTPServer):
    daemon_threads = True

    def __init__(self, session, port=0):
        super().__init__((HOST, port), Handler)
        self.session, self.token = session, secrets.token_urlsafe(24)
        self.room = threading.BoundedSemaphore(MOST_CONNECTIONS)
        self.awaited = {}  # connections whose next request isn't there yet, and up to when it may come
        self.host = f'{HOST}:{self.server_port}'.removesuffix(':80')  # which browsers leave out

    def address(self):
        return f'http://{self.host}/{self.token}/'

    def service_actions(self):
        """Cuts off those whose request isn't there in time, also where some of it comes again and again."""
        for connection, limit in list(self.awaited.items()):
            if time.monotonic() > limit:
                with contextlib.suppress(OSError):
                    connection.shutdown(socket.SHUT_RD)

    def process_request(self, request, client_address):
        """A thread for each connection, of which there are only so many; one more is closed at once."""
        if self.room.acquire(blocking=False):
            super().process_request(request, client_address)
        else:
            self.shutdown_request(request)

    def process_request_thread(self, request, client_address):
        try:
            super().process_request_thread(request, client_address)
        finally:
            self.room.release()

    def handle_error(self, request, client_address):
        """A browser that went away or let us wait is no matter; the session has what was sent."""
        if not isinstance(sys.exc_info()[1], OSError):
            super().handle_error(request, client_address)


class Handler(BaseHTTPRequestHandler):
    protocol_version = 'HTTP/1.1'
    server_version, sys_version = 'live', ''
    timeout = PATIENCE
    disable_nagle_algorithm = True
    wbufsize = 1 << 16

    def log_message(self, *_):
        pass

    def handle_one_request(self):
        self.server.awaited[self.connection] = time.monotonic() + PATIENCE
        try:
            super().handle_one_request()
        finally:
            self.server.awaited.pop(self.connection, None)

    def do_GET(self):
        self.serve(GETS)

    def do_POST(self):
        self.serve(POSTS)

    def serve(self, actions):
        try:
            path, query = self.within()
            body = self.body() if self.command == 'POST' else None
            self.server.awaited.pop(self.connection)
            if self.command == 'GET' and path in FILES:
                self.file(FILES[path])
            elif path in actions:
                actions[path](self, body if body is not None else query)
            else:
                raise Wrong(404, 'there is nothing here')
        except Wrong as wrong:
            self.refuse(wrong.status, wrong.sentence)
        except NotSent as refused:
            self.answer(refused.args[0].encode(), PLAIN, 409)
        except Ended:
            self.answer(b'the program has ended', PLAIN, 409)

    def within(self):
        """The path below the token, and the query. Refuses what doesn't come from a page of ours."""
        if self.headers.get_all('Host') != [self.server.host]:
            raise Wrong(403, 'this is another host')
        if self.headers.get('Origin', f'http://{self.server.host}') != f'http://{self.server.host}':
            raise Wrong(403, 'this comes from another origin')
        path, _, query = self.path.partition('?')
        _, token, path = (path.split('/', 2) + ['', ''])[:3]
        if not hmac.compare_digest(token.encode(), self.server.token.encode()):
            raise Wrong(403, 'the address lacks the token')
        return path, parse_qs(query)

    def body(self):
        length = self.headers.get('Content-Length', '')
        if self.headers.get('Transfer-Encoding') or not (length.isascii() and length.isdigit()):
            raise Wrong(411, 'a body has its length')
        if len(length) > 9 or int(length) > MOST_BODY:
            raise Wrong(413, f'a body has at most {MOST_BODY} bytes')
        body = self.rfile.read(int(length))
        if len(body) < int(length):
            raise Wrong(400, 'the body ended too early')
        return body

    def refuse(self, status, sentence):
        """Answers, and takes in what is still sent, so that the answer is read; the connection isn't used again."""
        self.close_connection = True
        self.answer(sentence.encode(), PLAIN, status)
        self.wfile.flush()
        self.connection.shutdown(socket.SHUT_WR)
        left, limit = MOST_DRAINED, time.monotonic() + PATIENCE
        while left > 0 and time.monotonic() < limit and (piece := self.connection.recv(65_536)):
            left -= len(piece)

    def answer(self, data, kind, status=200, file=None, seconds=None):
        self.send_response(status)
        self.send_header('Content-Type', kind)
        self.send_header('Content-Length', str(len(data)))
        if file:
            self.send_header('Content-Disposition', f'attachment; filename="{file}"')
        if seconds is not None:
            self.send_header('Server-Timing', f'all;dur={1000 * seconds:.3f}')
        if self.close_connection:
            self.send_header('Connection', 'close')
        for name, value in SAFE.items():
            self.send_header(name, value)
        self.end_headers()
        self.wfile.write(data)

    def json(self, value):
        self.answer(json.dumps(value).encode(), JSON)

    def file(self, name):
        with open(os.path.join(HOME, name), 'rb') as file:
            self.answer(file.read(), KINDS[os.path.splitext(name)[1]])

    # What a page asks

    def say(self, body):
        """Lines to be sent, and what changed of the shown layers: a line of JSON, and the layers' texts one after another."""
        began = time.monotonic()
        entries, changes, edits = self.server.session.say(*said(body))
        layers = {name: {**change, 'length': len(text)} for name, (change, text) in changes.items()}
        head = {'entries': [entry.told(number) for number, entry in entries], 'layers': layers, 'as_of': edits, 'state': self.server.session.state()}
        self.answer(json.dumps(head).encode() + b'\n' + b''.join(text for _, text in changes.values()), BYTES, seconds=time.monotonic() - began)

    def state(self, query):
        first = re.fullmatch('[0-9]{1,9}', query.get('from', ['0'])[0])
        session = self.server.session
        state = session.state()
        self.json({'state': state, 'entries': session.since(int(first[0]) if first else 0)})

    def look(self, _):
        self.json({'heights': colours.HEIGHTS, 'flow': colours.FLOW, 'classes': colours.CLASSES, 'words': self.server.session.words,
                   'projection': self.projection() is not None})

    def legend(self, query):
        self.json(self.server.session.legend(layer(query)))

    def grid(self, query):
        name = layer(query)
        text = self.server.session.printed(name)
        if not text.startswith(b'ncols '):
            raise Wrong(404, text.decode('latin-1').strip())
        self.answer(text, PLAIN, file=f'{name}.asc')

    def projection(self):
        """The file beside the first grid that tells its projection, where there is one."""
        path = projection_beside(self.server.session.words[3].partition('=')[2])
        return path if os.path.isfile(path) else None

    def prj(self, query):
        path = self.projection()
        if path is None:
            raise Wrong(404, 'the first grid has no .prj beside it')
        with open(path, 'rb') as file:
            self.answer(file.read(), PLAIN, file=f'{layer(query)}.prj')

    def session(self, _):
        self.answer(self.server.session.as_session(), PLAIN, file='live.session')

    def replies(self, _):
        self.answer(self.server.session.all_replies(), PLAIN, file='live.out')


GETS = {'state': Handler.state, 'look': Handler.look, 'legend': Handler.legend, 'grid': Handler.grid, 'projection': Handler.prj,
        'live.session': Handler.session, 'live.out': Handler.replies}
POSTS = {'say': Handler.say}


def layer(query):
    name = query.get('layer', [''])[0]
    if not NAME.fullmatch(name) or len(name) > 200:
        raise Wrong(400, 'this is no name of a layer')
    return name


def said(body):
    """The lines and the shown layers of a body, and the rows and columns in sight, or why there are none."""
    try:
        given = json.loads(body)
        lines = [line.encode() for line in given['lines']]
        shown = {str(name): int(since) for name, since in given['shown'].items()}
        sight = tuple(sorted(set(map(int, given['sight'][kind]))) for kind in ('rows', 'columns')) if given.get('sight') else None
    except (ValueError, TypeError, KeyError, AttributeError, OverflowError, RecursionError) as error:
        raise Wrong(400, 'the body is not as a page of ours makes it') from error
    if len(lines) > MOST_LINES or len(shown) > MOST_LINES:
        raise Wrong(400, 'these are too many lines')
    if any(b'\n' in line for line in lines):
        raise Wrong(400, 'a line has no line feed within it')
    return lines, shown, sight
