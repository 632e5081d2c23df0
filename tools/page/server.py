"""The page's server: this machine alone, one token, its own page alone, and a limit for every size."""
import hmac
import http.server
import json
import pathlib
import re
import secrets
import threading
import urllib.parse

from . import programs, recording

HERE = pathlib.Path(__file__).resolve().parent
HOST = '127.0.0.1'
# Bytes of a file that is sent, letters of an address and of a name, connections at once, and seconds that a silent one is kept.
MOST_BYTES = 1024 * 1024
MOST_ADDRESS, MOST_NAME, MOST_CONNECTIONS, SILENCE = 2048, 120, 24, 20
NUMBER = re.compile(r'\d{1,7}')
# What is said of a request that cannot be read.
UNREAD = {400: 'this is no request', 414: 'the address is too long', 431: 'the request has too many lines, or too long ones', 501: 'there is no such method here',
          505: 'this version of HTTP is not taken'}
SCRIPTS = ('text.js', 'colours.js', 'picture.js', 'steps.js', 'page.js')


class Refused(Exception):
    """A request that is not answered: its status and a sentence."""

    def __init__(self, status, sentence):
        super().__init__(sentence)
        self.status, self.sentence = status, sentence


def page_of(nonce):
    """The one page: markup, style and scripts in one text, with the word that its policy knows them by."""
    text = (HERE / 'page.html').read_text()
    script = '\n'.join((HERE / name).read_text() for name in SCRIPTS)
    for mark, part in (('/*STYLE*/', (HERE / 'page.css').read_text()), ('/*SCRIPT*/', script), ('NONCE', nonce)):
        text = text.replace(mark, part)
    return text


def policy(nonce):
    return ("default-src 'none'; script-src 'nonce-%s'; style-src 'nonce-%s'; connect-src 'self'; img-src 'self' data:; "
            "base-uri 'none'; form-action 'none'; frame-ancestors 'none'" % (nonce, nonce))


class Handler(http.server.BaseHTTPRequestHandler):
    protocol_version = 'HTTP/1.1'
    server_version, sys_version = 'inspect', ''
    timeout = SILENCE

    def log_message(self, *_):
        pass

    def send_error(self, code, message=None, explain=None):
        """What the library itself refuses, as a line that is no request; nothing of it is sent back."""
        self.close_connection = True
        self.answer(code, 'text/plain; charset=utf-8', (UNREAD.get(code, UNREAD[400]) + '\n').encode())

    def answer(self, status, kind, data, nonce=None):
        # (to a request without a version the library would answer without a status)
        self.request_version = self.protocol_version
        self.send_response(status)
        for name, value in (('Content-Type', kind), ('Content-Length', str(len(data))), ('Cache-Control', 'no-store'), ('X-Content-Type-Options', 'nosniff'),
                            ('Referrer-Policy', 'no-referrer'), ('Cross-Origin-Resource-Policy', 'same-origin'), ('Cross-Origin-Opener-Policy', 'same-origin'),
                            ('X-Frame-Options', 'DENY'), ('Content-Security-Policy', policy(nonce) if nonce else "default-src 'none'")):
            self.send_header(name, value)
        if self.close_connection:
            self.send_header('Connection', 'close')
        if status == 405:
            self.send_header('Allow', 'GET, POST')
        self.end_headers()
        if getattr(self, 'command', '') != 'HEAD':
            self.wfile.write(data)

    def tell(self, value):
        self.answer(200, 'application/json', json.dumps(value).encode())

    def judge(self):
        """The path below the token, and what the address asks, if the request is the page's own."""
        own = '%s:%d' % (HOST, self.server.server_port)
        if len(self.path) > MOST_ADDRESS:
            raise Refused(414, 'the address is longer than %d letters' % MOST_ADDRESS)
        if self.headers.get_all('Host', []) != [own]:
            raise Refused(403, 'only requests to %s are answered' % own)
        if any(it != 'http://' + own for it in self.headers.get_all('Origin', [])):
            raise Refused(403, 'only the page itself may ask')
        if self.headers.get('Sec-Fetch-Site', 'none') not in ('none', 'same-origin'):
            raise Refused(403, 'only the page itself may ask')
        parts = urllib.parse.urlsplit(self.path)
        if parts.scheme or parts.netloc:
            raise Refused(400, 'the address of a request begins with /')
        token, _, rest = parts.path.removeprefix('/').partition('/')
        if not hmac.compare_digest(token.encode('utf-8', 'replace'), self.server.token.encode()):
            raise Refused(404, 'there is nothing at this address: take the whole address that tools/inspect printed')
        try:
            asked = urllib.parse.parse_qs(parts.query, keep_blank_values=True, strict_parsing=bool(parts.query), max_num_fields=16, errors='strict')
        except ValueError:
            raise Refused(400, 'the part of the address after ? is not readable') from None
        if any(len(it) != 1 for it in asked.values()):
            raise Refused(400, 'a name stands twice in the address')
        return rest, {name: it[0] for name, it in asked.items()}

    def body(self):
        """The bytes that are sent, no more than the limit."""
        if self.headers.get('Transfer-Encoding'):
            raise Refused(411, 'what is sent needs its length')
        lengths = self.headers.get_all('Content-Length', [])
        if not lengths:
            raise Refused(411, 'what is sent needs its length')
        if len(lengths) != 1 or not re.fullmatch(r'[0-9]{1,12}', lengths[0]):
            raise Refused(400, 'the length of what is sent is no number')
        if int(lengths[0]) > MOST_BYTES:
            raise Refused(413, 'at most %d bytes may be sent' % MOST_BYTES)
        data = self.rfile.read(int(lengths[0]))
        if len(data) != int(lengths[0]):
            raise Refused(400, 'fewer bytes were sent than were told')
        return data

    def serve(self, routes):
        try:
            try:
                # (a body that is not read would be taken for the next request)
                self.close_connection = self.close_connection or self.command != 'GET'
                rest, asked = self.judge()
                if rest not in routes:
                    known = rest in GETS or rest in POSTS
                    raise Refused(405 if known else 404, 'this address takes no %s' % self.command if known else 'there is nothing at this address')
                if self.command == 'GET' and (self.headers.get('Content-Length', '0') != '0' or self.headers.get('Transfer-Encoding')):
                    self.close_connection = True
                    raise Refused(400, 'a question has no body')
                routes[rest](self, asked)
            except Refused as error:
                self.close_connection = True
                self.answer(error.status, 'text/plain; charset=utf-8', (error.sentence + '\n').encode())
            except programs.Failed as error:
                self.answer(500, 'text/plain; charset=utf-8', (str(error) + '\n').encode())
        except (ConnectionError, TimeoutError):
            self.close_connection = True

    def do_GET(self):
        self.serve(GETS)

    def do_POST(self):
        self.serve(POSTS)

    def do_other(self):
        self.close_connection = True
        try:
            self.answer(405, 'text/plain; charset=utf-8', b'only GET and POST are taken\n')
        except ConnectionError:
            pass

    do_HEAD = do_PUT = do_DELETE = do_PATCH = do_OPTIONS = do_TRACE = do_CONNECT = do_other

    # What is answered.

    def number(self, asked, name):
        if not NUMBER.fullmatch(asked.get(name, '')):
            raise Refused(400, '%s is a number of at most 7 digits' % name)
        return int(asked[name])

    def slot(self, asked):
        if asked.get('slot') not in recording.SLOTS:
            raise Refused(400, 'slot is a or b')
        return asked['slot']

    def options(self, asked):
        found = recording.options_of(asked.get('snap'), asked.get('width'), asked.get('edition'))
        if not found:
            raise Refused(400, 'snap is 0 or 1, width 64, 128 or 256, edition 1 or 2')
        return found

    def found(self, asked):
        found = self.server.desk.find(self.slot(asked), self.number(asked, 'serial'))
        if not found:
            raise Refused(409, 'that recording is not open')
        return found

    def page(self, _):
        nonce = secrets.token_urlsafe(16)
        self.answer(200, 'text/html; charset=utf-8', page_of(nonce).encode(), nonce)

    def state(self, _):
        desk = self.server.desk
        self.tell({'kind': desk.made.kind, 'build': desk.made.words, 'version': desk.made.version, 'refusals': desk.made.refusals, 'slow': desk.made.is_slow,
                   'slots': {slot: it and it.told() for slot, it in desk.slots.items()}})

    def tile(self, asked):
        self.tell(self.found(asked).tile(self.number(asked, 'row'), self.number(asked, 'tile')))

    def scan(self, found, asked):
        found.look(self.number(asked, 'row'), self.number(asked, 'tile'))
        self.tell(found.told(self.number(asked, 'after')))

    def marks(self, asked):
        if asked.get('kind') not in recording.KINDS:
            raise Refused(400, 'kind is draw or layer')
        self.scan(self.found(asked).marks_of(asked['kind'], self.number(asked, 'number')), asked)

    def lists(self, asked):
        found = self.server.desk.comparison()
        if not found:
            raise Refused(409, 'two recordings are needed')
        self.scan(found, asked)

    def open(self, asked):
        slot, options, data = self.slot(asked), self.options(asked), self.body()
        name = ''.join(it for it in asked.get('name', '') if it.isprintable())[:MOST_NAME] or 'a file'
        self.tell(self.server.desk.open(slot, name, data, options).told())

    def again(self, asked):
        slot, options = self.slot(asked), self.options(asked)
        self.body()
        old = self.server.desk.slots[slot]
        if not old:
            raise Refused(409, 'that recording is not open')
        self.tell(self.server.desk.open(slot, old.name, old.data, options).told())

    def close_slot(self, asked):
        slot = self.slot(asked)
        self.body()
        if slot != 'b':
            raise Refused(400, 'only the second recording can be closed')
        self.server.desk.close(slot)
        self.tell({})


GETS = {'': Handler.page, 'state': Handler.state, 'tile': Handler.tile, 'marks': Handler.marks, 'lists': Handler.lists}
POSTS = {'open': Handler.open, 'options': Handler.again, 'close': Handler.close_slot}


class Server(http.server.ThreadingHTTPServer):
    daemon_threads = True
    request_queue_size = 64

    def __init__(self, desk):
        super().__init__((HOST, 0), Handler)
        self.desk, self.token = desk, secrets.token_urlsafe(24)
        self.places = threading.BoundedSemaphore(MOST_CONNECTIONS)

    def server_bind(self):
        # (the library would ask a name server for the machine's name)
        http.server.socketserver.TCPServer.server_bind(self)
        self.server_name, self.server_port = self.server_address

    def process_request(self, request, address):
        if not self.places.acquire(timeout=SILENCE):
            self.shutdown_request(request)
            return
        super().process_request(request, address)

    def process_request_thread(self, request, address):
        try:
            super().process_request_thread(request, address)
        finally:
            self.places.release()

    def handle_error(self, request, address):
        pass


def serve(desk, tell):
    """Serves the page until it is interrupted; `tell` gets the address."""
    server = Server(desk)
    try:
        tell('http://%s:%d/%s/' % (HOST, server.server_port, server.token))
        server.serve_forever(poll_interval=0.2)
    finally:
        server.server_close()
        desk.stop()
