"""Peers of a server on the loopback address, good and bad: python3 checks/peers.py PROGRAM.

Each server is over a store of its own with the empty table Tab, and is given the number of its connections: after these it has to end by
itself, with status 0 and without a note. What was said is compared byte for byte but for the date, which has to be that of now.
"""

import http.client
import json
import os
import re
import shutil
import signal
import socket
import struct
import subprocess
import sys
import tempfile
import threading
import time
from datetime import datetime, timezone

PROGRAM = os.path.abspath(sys.argv[1])
LIMIT = 240  # seconds within which a server answers or ends
TABLE = (
    'CreateTable {"TableName":"Tab","KeySchema":[{"AttributeName":"k","KeyType":"HASH"}],'
    '"AttributeDefinitions":[{"AttributeName":"k","AttributeType":"S"}]}\n'
)
CONTINUE = b"HTTP/1.1 100 Continue\r\n\r\n"
PHRASES = {
    200: "OK",
    400: "Bad Request",
    404: "Not Found",
    405: "Method Not Allowed",
    411: "Length Required",
    413: "Content Too Large",
    415: "Unsupported Media Type",
    431: "Request Header Fields Too Large",
    501: "Not Implemented",
}
passed = failed = 0
servers = []
work = tempfile.TemporaryDirectory()


def wants(name, got, wanted):
    global passed, failed
    if got == wanted:
        passed += 1
    else:
        failed += 1
        print("peers: %s: %.400r, not %.400r" % (name, got, wanted), flush=True)


# ---- requests and replies


def head(*lines):
    return "".join(line + "\r\n" for line in lines).encode() + b"\r\n"


def post(operation, body, *fields, version="1.1"):
    """A whole request."""
    target = "X-Amz-Target: DynamoDB_20120810." + operation
    return head("POST / HTTP/" + version, target, *fields, "Content-Length: %d" % len(body)) + body.encode()


def key_of(key):
    return '"k":{"S":"%s"}' % key


def put(key, *fields, text="", **rest):
    return post("PutItem", '{"TableName":"Tab","Item":{%s,"t":{"S":"%s"}}}' % (key_of(key), text), *fields, **rest)


def get(key, *fields, table="Tab"):
    return post("GetItem", '{"TableName":"%s","Key":{%s}}' % (table, key_of(key)), *fields)


def said(body, status=200, close=True):
    """The bytes of a reply, without its date."""
    return (
        "HTTP/1.1 %d %s\r\nServer: alternator\r\nDate: NOW\r\nContent-Type: application/x-amz-json-1.0\r\n"
        "Content-Length: %d\r\nConnection: %s\r\n\r\n%s"
        % (status, PHRASES[status], len(body), "close" if close else "keep-alive", body)
    ).encode()


def item(key, text=""):
    return said('{"Item":{%s,"t":{"S":"%s"}}}' % (key_of(key), text))


def refused(status, text):
    return said('{"message":"%s"}' % text, status)


def undated(text):
    """The text with NOW in the place of each date of a reply that is that of now."""

    def now(date):
        told = datetime.strptime(date[1].decode(), "%a, %d %b %Y %H:%M:%S").replace(tzinfo=timezone.utc)
        return b"\r\nDate: NOW\r\n" if abs((datetime.now(timezone.utc) - told).total_seconds()) < LIMIT else date[0]

    return re.sub(rb"\r\nDate: ([A-Z][a-z]{2}, \d\d [A-Z][a-z]{2} \d{4} \d\d:\d\d:\d\d) GMT\r\n", now, text)


# ---- servers and connections


class Server:
    """A server that has so many connections, of so many requests at most."""

    def __init__(self, per, connections):
        self.store = tempfile.mkdtemp(dir=work.name)
        shutil.copytree(os.path.join(work.name, "made"), self.store, dirs_exist_ok=True)
        for _ in range(20):
            with socket.socket() as free:
                free.bind(("127.0.0.1", 0))
                self.port = free.getsockname()[1]
            words = [self.store, str(self.port), "serve", str(per), str(connections), "65536", "4"]
            self.run = subprocess.Popen([PROGRAM] + words, stdin=subprocess.DEVNULL, stdout=subprocess.PIPE, stderr=subprocess.PIPE)
            servers.append(self.run)
            if self.listens():
                return
        sys.exit("peers: no port is free")

    def listens(self):
        """Waits until it listens: whether it does."""
        place = "0100007F:%04X 00000000:0000 0A" % self.port
        for _ in range(100 * LIMIT):
            if self.run.poll() is not None:
                return False
            with open("/proc/net/tcp") as sockets:
                if place in sockets.read():
                    return True
            time.sleep(0.01)
        self.run.kill()
        return False

    def connection(self, **options):
        peer = socket.socket()
        for option, value in options.items():
            level = socket.SOL_SOCKET if option.startswith("SO_") else socket.IPPROTO_TCP
            peer.setsockopt(level, getattr(socket, option), value)
        peer.setsockopt(socket.IPPROTO_TCP, socket.TCP_NODELAY, 1)
        peer.settimeout(LIMIT)
        peer.connect(("127.0.0.1", self.port))
        return peer

    def stopped(self, deed):
        """Does something while it stands still, so that what comes meanwhile comes at once. It is to be waiting for a connection."""
        self.run.send_signal(signal.SIGSTOP)
        done = deed()
        self.run.send_signal(signal.SIGCONT)
        return done

    def end(self):
        """How it ended, and what it noted."""
        try:
            said, noted = self.run.communicate(timeout=LIMIT)
        except subprocess.TimeoutExpired:
            self.run.kill()
            self.run.communicate()
            return "it doesn't end"
        return self.run.returncode, said, noted

    def keys(self):
        """The keys that are stored once it ended."""
        (scan,) = replayed(self.store, 'Scan {"TableName":"Tab"}\n')
        return sorted(item["k"]["S"] for item in json.loads(scan[4:])["Items"])


ENDED = (0, b"", b"")


def replayed(store, lines):
    words = [PROGRAM, store, "0", "replay", "65536", "4"]
    return subprocess.run(words, input=lines, capture_output=True, text=True, check=True, timeout=LIMIT).stdout.splitlines()


def send(peer, text, size=1 << 30, pause=0.0):
    """Sends it in pieces of that size, as far as the server takes it."""
    try:
        for place in range(0, len(text), size):
            peer.sendall(text[place : place + size])
            if pause:
                time.sleep(pause)
    except OSError:
        pass


def heard(peer):
    """What is said until the server hangs up."""
    text = b""
    try:
        while piece := peer.recv(1 << 16):
            text += piece
    except OSError as error:
        text += repr(error).encode()
    peer.close()
    return undated(text)


def reset(peer):
    peer.setsockopt(socket.SOL_SOCKET, socket.SO_LINGER, struct.pack("ii", 1, 0))
    peer.close()


def asked(server, text, size=1 << 30, pause=0.0, ends=False):
    """What is said on a connection on which this is sent, whose end is sent too or isn't."""
    peer = server.connection()
    send(peer, text, size, pause)
    if ends:
        peer.shutdown(socket.SHUT_WR)
    return heard(peer)


# ---- one connection of two requests at most: the name, the bytes, whether their end follows, what is said, the keys that are stored then

POST, CLOSE = "POST / HTTP/1.1", "Connection: close"
REFUSED = [
    ("a version that is none", b"POST / HTTP/2.0\r\n", 400, "bad head"),
    ("a head without a line end", b"POST /" + 16378 * b"a", 431, "head too large"),
    ("a transfer coding", head(POST, "Transfer-Encoding: chunked"), 501, "no transfer codings"),
    ("another method", head("GET / HTTP/1.1"), 405, "only POST"),
    ("another target", head("POST /x HTTP/1.1"), 404, "only /"),
    ("a content coding", head(POST, "Content-Encoding: gzip"), 415, "no content codings"),
    ("no length", head(POST), 411, "length required"),
    ("a length that isn't digits", head(POST, "Content-Length: 1x"), 400, "bad length"),
    ("two lengths", head(POST, "Content-Length: 3", "Content-Length: 4"), 400, "bad length"),
    ("a length too great", head(POST, "Content-Length: 16777217"), 413, "request too long"),
]
DONE = said("{}", close=False)
LAST = said("{}")
LONG = put("a", "X: ")
WIDE = get("a")[get("a").index(b"{") :].decode().ljust(16777216)
TALKS = [(name, text, False, refused(*why), []) for name, text, *why in REFUSED]
TALKS += [(name + ", and a put", text + put("a"), False, refused(*why), []) for name, text, *why in REFUSED]
TALKS += [
    ("nothing", b"", True, b"", []),
    ("a put without its last byte", put("a")[:-1], True, b"", []),
    ("a put, and one cut inside its body", put("a") + put("b")[:-1], True, DONE, ["a"]),
    ("two puts in one piece", put("a") + put("b"), False, DONE + LAST, ["a", "b"]),
    ("a third put where two may come", put("a") + put("b") + put("c"), False, DONE + LAST, ["a", "b"]),
    ("a put that closes, and a put", put("a", CLOSE) + put("b"), False, LAST, ["a"]),
    ("a put of HTTP/1.0, and a put", put("a", version="1.0") + put("b"), False, LAST, ["a"]),
    ("a put, and a head that is refused", put("a") + head("GET / HTTP/1.1"), False, DONE + refused(405, "only POST"), ["a"]),
    ("a put that waits to go on, in one piece", put("a", "Expect: 100-continue"), True, CONTINUE + DONE, ["a"]),
    ("one that is cut", put("a", "Expect: 100-continue")[:-1], True, CONTINUE, []),
    ("the longest head", put("a", "X: ".ljust(16387 - LONG.index(b"{"), "x")), True, DONE, ["a"]),
    ("a head a byte longer", put("a", "X: ".ljust(16388 - LONG.index(b"{"), "x")), False, refused(431, "head too large"), []),
    ("the longest body", post("GetItem", WIDE), True, DONE, []),
    ("a body that is refused and sent", REFUSED[-1][1] + bytes(300000), False, refused(413, "request too long"), []),
]


def talks():
    for name, text, ends, wanted, keys in TALKS:
        server = Server(2, 1)
        wants(name, (asked(server, text, ends=ends), server.end(), server.keys()), (wanted, ENDED, keys))


def unheard():
    """Requests that came whole before their peer reset: no reply can be said, and they are carried out."""
    for name, text, keys in [
        ("two puts whose replies can't be said", put("a") + put("b"), ["a", "b"]),
        ("a put whose peer can't be let go on", put("a", "Expect: 100-continue"), ["a"]),
        ("a put whose peer can't be answered, and one cut inside its body", put("a") + put("b")[:-1], ["a"]),
    ]:
        server = Server(2, 1)

        def sent_and_reset():
            peer = server.connection()
            send(peer, text)
            reset(peer)

        server.stopped(sent_and_reset)
        wants(name, (server.end(), server.keys()), (ENDED, keys))


# ---- many connections


def seven():
    """Requests in pieces, refused, cut off and unheard, on seven connections of one request each."""
    server = Server(1, 7)
    request = get("a", "Expect: 100-continue")
    wants("a get of a missing item, byte by byte", asked(server, request, 1, 0.001), CONTINUE + LAST)
    for name, text, *why in (REFUSED[-1], REFUSED[6], REFUSED[2]):
        wants(name + ", one of seven", asked(server, text), refused(*why))
    wants("a put that is cut", asked(server, put("cut")[:-1], ends=True), b"")

    def sent_and_reset():
        peer = server.connection()
        send(peer, put("unheard", text="kept"))
        reset(peer)

    server.stopped(sent_and_reset)
    wants("a put whose reply couldn't be said", asked(server, get("unheard")), item("unheard", "kept"))
    wants("the seven", (server.end(), server.keys()), (ENDED, ["unheard"]))


def first():
    """The first request ever: its table isn't there."""
    server = Server(1, 1)
    body = '{"__type":"com.amazonaws.dynamodb.v20120810#ResourceNotFoundException","message":"Requested resource not found"}'
    wants("no such table", asked(server, get("a", "Expect: 100-continue", table="Tob"), 1), CONTINUE + said(body, 400))
    wants("the first", server.end(), ENDED)


def pieces():
    """A put and a get in pieces of each size, some 3,000 of the small ones, and what is stored then."""
    sizes = {1: 150, 7: 1000, 1 << 16: 15000}
    server = Server(1, 2 * len(sizes))
    for size, times in sizes.items():
        text = times * "leave it at the door "
        wants("a put in pieces of %d" % size, asked(server, put(size, text=text), size), LAST)
        wants("a get in pieces of %d" % size, asked(server, get(size), size), item(size, text))
    wants("pieces", server.end(), ENDED)


def each_byte():
    """Peers that reset, or end, behind each byte of two puts: those that are whole by then are stored."""
    whole = len(put("0000"))
    cuts = range(2 * whole + 1)
    server = Server(2, 2 * len(cuts))
    ended = []
    for cut in cuts:
        peer = server.connection()
        send(peer, (put("a%03d" % cut) + put("b%03d" % cut))[:cut])
        reset(peer)
        ended.append(asked(server, (put("c%03d" % cut) + put("d%03d" % cut))[:cut], ends=True))
    wants("a peer that ends at each byte", ended, [b"" if c < whole else DONE if c < 2 * whole else DONE + LAST for c in cuts])
    keys = [letter + "%03d" % cut for letter, least in zip("abcd", 2 * [whole, 2 * whole]) for cut in cuts if cut >= least]
    wants("a peer that resets or ends at each byte", (server.end(), server.keys()), (ENDED, keys))


def thousand():
    """A thousand connections one after another, and fifty at a time."""
    server = Server(1, 3000)
    texts = [asked(server, put(n)) for n in range(1000)]
    wants("a thousand puts one after another", texts, 1000 * [LAST])

    def fifty(requests):
        """What is said on fifty connections, which are all opened, and sent their requests, before one is read."""
        peers = [server.connection() for _ in requests]
        for peer, request in zip(peers, requests):
            send(peer, request)
        return [heard(peer) for peer in peers]

    texts = [text for n in range(0, 1000, 50) for text in fifty([get(n + i) for i in range(50)])]
    wants("a thousand gets fifty at a time", texts, [item(n) for n in range(1000)])
    update = (
        '{"TableName":"Tab","Key":{"k":{"S":"counter"}},"UpdateExpression":"ADD n :one",'
        '"ExpressionAttributeValues":{":one":{"N":"1"}},"ReturnValues":"UPDATED_NEW"}'
    )
    texts = [text for _ in range(20) for text in fifty(50 * [post("UpdateItem", update)])]
    counts = [said('{"Attributes":{"n":{"N":"%d"}}}' % (n + 1)) for n in range(1000)]
    wants("a counter raised a thousand times fifty at a time", sorted(texts), sorted(counts))
    wants("the thousands", server.end(), ENDED)


def vanishing():
    """Peers that are gone before they are accepted, or in the middle of a long reply: the next one is answered."""
    server = Server(1, 1000)
    text = "leave it at the door " * 18000
    wants("a long item", asked(server, put("long", text=text)), LAST)

    def gone():
        for _ in range(20):
            reset(server.connection())

    server.stopped(gone)
    wants("behind peers that were gone", asked(server, get("a")), LAST)
    peer = narrow(server)
    send(peer, get("long"))
    peer.recv(100)
    reset(peer)
    wants("behind one that reset inside its reply", asked(server, get("long")), item("long", text))
    server.run.terminate()
    wants("the vanishing", server.end(), (-signal.SIGTERM, b"", b""))


def narrow(server):
    """A connection that takes little at a time."""
    return server.connection(SO_RCVBUF=4096, TCP_MAXSEG=536)


def refused_late():
    """Heads that are refused, whose bodies come once the reply was said: their peers read it, and so does a client that reads only then."""
    server = Server(1, len(REFUSED) + 2)
    for name, text, *why in REFUSED:
        peer = server.connection()
        send(peer, text)
        time.sleep(0.1)
        send(peer, bytes(300000))
        time.sleep(0.1)
        send(peer, b"}")
        wants(name + ", and a body later", heard(peer), refused(*why))
    client = http.client.HTTPConnection("127.0.0.1", server.port, timeout=LIMIT)
    client.request("POST", "/", bytes(16777217))
    reply = client.getresponse()
    wants("a body too long of http.client", (reply.status, reply.read()), (413, b'{"message":"request too long"}'))
    wants("behind those", asked(server, put("a")), LAST)
    wants("the refused", server.end(), ENDED)


# ---- peers that wait, each on a server of its own, all at once: no peer stops the others for long


class Waiting(threading.Thread):
    """A peer that waits, and one behind it: after how many seconds the second is answered."""

    def __init__(self, name, deed, least, most):
        super().__init__(daemon=True)
        self.name, self.deed, self.least, self.most = name, deed, least, most
        self.server = Server(2, 3)
        self.found = None
        wants("an item for " + name, asked(self.server, put("a", CLOSE, text="leave it at the door " * 18000)), LAST)
        self.start()

    def run(self):
        begun = time.monotonic()
        peer = narrow(self.server)
        next_one = self.server.connection()
        send(next_one, get("b", CLOSE))
        doer = threading.Thread(target=self.deed, args=(peer,), daemon=True)
        doer.start()
        text = heard(next_one)
        self.found = text, self.least <= time.monotonic() - begun <= self.most
        reset(peer)

    def tell(self):
        self.join(2 * LIMIT)
        wants(self.name, (self.found, self.server.end()), ((LAST, True), ENDED))


def is_silent(peer):
    send(peer, put("c")[:-1])


def keeps_its_connection(peer):
    send(peer, put("c"))


def is_slow(peer):
    send(peer, put("c"), 1, 2.5)


def is_let_go_on_late(peer):
    text = put("c", "Expect: 100-continue")
    body = text.index(b"{")
    send(peer, text[:body], body // 7, 2.5)
    send(peer, text[body:], 1, 2.5)


def takes_nothing(peer):
    send(peer, get("a"))


def main():
    made = os.path.join(work.name, "made")
    subprocess.run([PROGRAM, made, "0", "init"], check=True, capture_output=True)
    replayed(made, TABLE)
    waiting = [
        Waiting("a peer that is silent", is_silent, 14.5, 29),
        Waiting("a peer that keeps its connection", keeps_its_connection, 14.5, 29),
        Waiting("a peer that sends too slowly", is_slow, 29.5, 57),
        Waiting("a peer that is let go on late and sends too slowly", is_let_go_on_late, 29.5, 57),
        Waiting("a peer that takes no reply", takes_nothing, 14.5, 29),
    ]
    for rows in [first, seven, talks, unheard, pieces, each_byte, thousand, vanishing, refused_late] + [one.tell for one in waiting]:
        try:
            rows()
        except (OSError, ValueError, subprocess.SubprocessError) as error:
            wants(rows.__name__, repr(error), "no error")
    print("peers: %d passed, %d failed" % (passed, failed))
    return 1 if failed else 0


# Whatever ends it, no server outlives it.
signal.signal(signal.SIGTERM, lambda *_: sys.exit(1))
try:
    sys.exit(main())
finally:
    for run in servers:
        run.kill()
