"""Serve: silent, slow, broken and oversized clients of a server, beside honest ones that it has to answer in time.

Each test serves a new vault in a folder of its own. Clients that misbehave come first. After them an honest one puts
a version and gets it: its answers are right, and the first is there no later than the deadlines of those before it
allow. Where there is a C compiler, the server has little room for what a client doesn't take. A head of empty lines
costs no more than ten of letters. A hundred clients come at once; none is answered wrongly. The server runs out of
descriptors, and goes on once it has some. Its files are moved, removed and replaced: then it refuses each put, and
nothing that it answered before is lost. It is killed under load and started again, five times, and whatever it had
answered is there. At last `verify` says that the vault is sound. All of this takes less than four minutes.

A busy machine makes no test fail. What has to come at once is waited for TRIALS_SLACK seconds (2 where nothing is
said), and twenty times as long as the same machine took for a put and a get just before. A test in which an answer was
late all the same is tried again; what is late three times is wrong.
"""

import contextlib
import os
import pathlib
import random
import select
import shutil
import socket
import tempfile
import threading
import time

from trials.parts.program import PROGRAM, Case, a_test_each, check, make_office, printed
from trials.parts.servers import HOST, ended, free_port, leave_descriptors, leave_no_descriptors, read_all, reset, started
from trials.preload.loaded import Loaded

# The server's deadlines, in seconds: for the head of a request, and for all of it, from when the connection was taken;
# for a client that takes nothing of its answer; behind an answer, for one that sends nothing, and for one that goes on.
HEAD, WHOLE, UNTAKEN, QUIET, GOING_ON = 5, 30, 10, 0.5, 5
# How long a client waits at most, whatever the server does.
LIMIT = 60
# What has to come at once may take this many times as long as it took just before the test.
TIMES = 20
# What the server may need for each of a hundred requests.
EACH = 0.05
# The longest head; how many of each kind are sent, and how many times more one of empty lines may cost.
LONGEST_HEAD, BLANK_HEADS, BLANK_FACTOR = 16_384, 20, 10
# How often something is tried in which an answer is late.
TRIES = 3
FILE = "records.vault"
# What is wrong of the test that runs.
WRONGS = []


class Late(Exception):
    """What didn't come in time."""


def wrong(text):
    WRONGS.append(text)


def put(key, content):
    head = f"PUT /docs/{key} HTTP/1.1\r\nhost: x\r\nx-vault-caller: ann\r\ncontent-length: {len(content)}\r\n\r\n"
    return head.encode() + content


def get(key):
    return f"GET /docs/{key} HTTP/1.1\r\nhost: x\r\nx-vault-caller: ann\r\n\r\n".encode()


def status_of(answer):
    return int(answer.split(b" ")[1]) if answer.startswith(b"HTTP/1.1 ") else None


def content_of(answer):
    return answer.partition(b"\r\n\r\n")[2]


class Server:
    """A program that serves a vault. `slack` is how long one waits for what has to come at once."""

    def __init__(self, file, slack):
        self.file, self.slack, self.puts, self.serving, self.port = file, slack, 0, None, free_port()

    def start(self, *words, front=()):
        self.serving = started(self.file, self.port, *words, front=front)

    def kill(self):
        """Kills the server if it runs, and returns what it wrote on standard error since it listened."""
        return ended(self.serving) if self.serving else ""

    def says(self, wanted):
        """That is what the server writes on standard error since it listened, and it comes at once."""
        said, end = b"", time.monotonic() + self.slack
        while len(said) < len(wanted):
            ready, _, _ = select.select([self.serving.stderr], [], [], max(0, end - time.monotonic()))
            part = os.read(self.serving.stderr.fileno(), 65_536) if ready else b""
            if not part:
                raise Late(f"of what the server says {said!r} came within {self.slack:.1f} s, wanted {wanted!r}")
            said += part
        if said.decode() != wanted:
            wrong(f"the server says {said!r}, wanted {wanted!r}")

    def measure(self):
        """Waits as long for what has to come at once as an honest client's time allows."""
        began = time.monotonic()
        self.check(LIMIT)
        self.slack += TIMES * (time.monotonic() - began)

    def connect(self, received=None):
        """A connection, with a receiving buffer of that size where one is given."""
        peer = socket.socket()
        if received:
            peer.setsockopt(socket.SOL_SOCKET, socket.SO_RCVBUF, received)
        peer.settimeout(LIMIT)
        peer.connect((HOST, self.port))
        return peer

    def ask(self, request, before=0):
        """The answer to a request, where those before it may take `before` seconds."""
        limit = before + self.slack
        began = time.monotonic()
        with self.connect() as peer:
            peer.settimeout(limit)
            peer.sendall(request)
            answer = read_all(peer, TimeoutError)
        took = time.monotonic() - began
        if took > limit:
            raise Late(f"{request[:20]!r}: {len(answer)} bytes within {took:.1f} s, and not within {limit:.1f} s")
        return answer

    def read_at_once(self, peer):
        """What comes to a client, up to the connection's end, which has to come at once."""
        began = time.monotonic()
        peer.settimeout(self.slack)
        came = read_all(peer, TimeoutError)
        if time.monotonic() - began > self.slack:
            raise Late(f"{len(came)} bytes and no end within {self.slack:.1f} s")
        return came

    def check(self, before=0):
        """An honest client puts a version and gets it, where those before it may take `before` seconds."""
        self.puts += 1
        key, content = f"honest-{self.puts}", f"content {self.puts}".encode()
        answer = self.ask(put(key, content), before)
        if status_of(answer) != 200 or b"x-amz-version-id: " not in answer:
            wrong(f"a put is answered {answer[:200]!r}")
        answer = self.ask(get(key))
        if status_of(answer) != 200 or content_of(answer) != content:
            wrong(f"a get is answered {answer[:200]!r}")

    def wants(self, answer, status, text, of):
        """A client of this kind got an answer of that status, with that text in it."""
        if status_of(answer) != status or text not in answer:
            wrong(f"{of} is answered {answer[:200]!r}, wanted {status} {text.decode()}")


class Dripping(threading.Thread):
    """A client that sends bytes, and then one more each second, until the connection ends."""

    def __init__(self, server, sent, slowly):
        super().__init__()
        self.peer, self.sent, self.slowly, self.came = server.connect(), sent, slowly, b""
        self.start()

    def run(self):
        began = time.monotonic()
        with self.peer, contextlib.suppress(BrokenPipeError, ConnectionResetError):
            self.peer.sendall(self.sent)
            for byte in self.slowly:
                if select.select([self.peer], [], [], 1)[0]:
                    break
                self.peer.sendall(bytes([byte]))
            self.came = read_all(self.peer, TimeoutError)
        self.took = time.monotonic() - began


class Flooding(threading.Thread):
    """A client that sends a request's head, and so many bytes behind it before it reads its answer."""

    def __init__(self, server, sent, count):
        super().__init__()
        self.peer, self.sent, self.count, self.came, self.failed = server.connect(), sent, count, b"", None
        self.start()

    def run(self):
        began = time.monotonic()
        with self.peer:
            try:
                self.peer.sendall(self.sent)
                for _ in range(0, self.count, 65_536):
                    self.peer.sendall(bytes(65_536))
                self.came = read_all(self.peer, TimeoutError)
            except OSError as error:
                self.failed = error
        self.took = time.monotonic() - began

    def answer(self):
        """What it got, once it has sent all; late where that took longer than the server reads after an answer."""
        self.join()
        if self.took > GOING_ON:
            raise Late(f"{self.count} bytes took {self.took:.1f} s")
        return self.came


def silent(server):
    """Two that send nothing: they are let go without a byte, and the third is answered."""
    peers = [server.connect() for _ in range(2)]
    server.check(2 * HEAD)
    for peer in peers:
        if server.read_at_once(peer) != b"":
            wrong("a silent client is answered")
        peer.close()


def slow_head(server):
    """One that sends a byte of its head a second: it is let go within the deadline of a head."""
    request = put("slow-head", b"hello")
    slow = Dripping(server, request[:5], request[5:])
    time.sleep(0.1)
    server.check(HEAD)
    slow.join()
    if slow.came:
        wrong(f"a slow head got {slow.came[:100]!r}")
    if slow.took > HEAD + 1 + server.slack:
        raise Late(f"a slow head had {slow.took:.1f} s")


def slow_body(server):
    """One that sends a byte of its body a second: what is whole in time is carried out, what isn't is not."""
    request = put("unhurried", b"12345678")
    unhurried = Dripping(server, request[:-8], request[-8:])
    time.sleep(0.1)
    server.check(9)
    unhurried.join()
    server.wants(unhurried.came, 200, b"x-amz-version-id", "a body of 8 seconds")
    slow = Dripping(server, put("slow-body", b"x" * 100)[:-100], b"x" * 100)
    time.sleep(0.1)
    server.check(WHOLE)
    slow.join()
    if slow.came:
        wrong(f"a slow body got {slow.came[:100]!r}")
    if slow.took > WHOLE + 1 + server.slack:
        raise Late(f"a slow body had {slow.took:.1f} s")
    server.wants(server.ask(get("slow-body")), 404, b"NoSuchKey", "a get of what came too late")


def half_closed(server):
    """Those that end their sending early are answered at once, but for one that sent nothing."""
    whole = put("half", b"hello")
    for sent, status, text in (
        (b"", None, b""),
        (whole[:30], 400, b"InvalidArgument"),
        (whole[:-3], 400, b"MalformedBody"),
        (whole, 200, b"x-amz-version-id: "),
    ):
        with server.connect() as peer:
            peer.sendall(sent)
            peer.shutdown(socket.SHUT_WR)
            server.wants(server.read_at_once(peer), status, text, f"half-closed after {len(sent)} bytes")
    server.check()


def large_bodies(server):
    """Of a large body that breaks off nothing is kept. A whole one is what was sent, in whatever pieces, and what comes
    after it is no part of it."""
    content = random.Random(1).randbytes(40_000)
    request = put("large", content)
    head = len(request) - len(content)
    for size in (0, 1, 4_096, 16_383, 16_384, 16_385, 32_768, 39_999):
        with server.connect() as peer:
            peer.sendall(request[:head + size])
            peer.shutdown(socket.SHUT_WR)
            server.wants(server.read_at_once(peer), 400, b"MalformedBody", f"a body that ends after {size} bytes")
        peer = server.connect()
        peer.sendall(request[:head + size])
        reset(peer)
    server.wants(server.ask(get("large")), 404, b"NoSuchKey", "a get of what broke off")
    for piece in (1_000, 4_097, 16_384, len(request)):
        with server.connect() as peer:
            peer.setsockopt(socket.IPPROTO_TCP, socket.TCP_NODELAY, 1)
            for begin in range(0, len(request), piece):
                peer.sendall(request[begin:begin + piece])
            peer.sendall(get("large"))
            server.wants(server.read_at_once(peer), 200, b"x-amz-version-id: ", f"a body in pieces of {piece} bytes")
        if content_of(server.ask(get("large"))) != content:
            wrong(f"a get of a body that came in pieces of {piece} bytes")
    server.check()


def resetting(server):
    """Those that break off don't keep the next one waiting."""
    whole = put("reset", b"hello")
    for sent in (b"", whole[:30], whole[:-3], whole):
        peer = server.connect()
        peer.sendall(sent)
        reset(peer)
        server.check()


def oversized(server):
    """A body of 64 MiB and a head of 4 MiB are refused, and the clients that send all of it first get their answers."""
    head = b"PUT /docs/big HTTP/1.1\r\nhost: x\r\nx-vault-caller: ann\r\n"
    body = Flooding(server, head + b"content-length: 67108864\r\n\r\n", 1 << 26)
    time.sleep(0.01)
    server.check(GOING_ON)
    server.wants(body.answer(), 400, b"EntityTooLarge", f"a body of 64 MiB ({body.failed})")
    more = Flooding(server, head + b"x-more: ", 1 << 22)
    server.wants(more.answer(), 400, b"InvalidArgument", f"a head of 4 MiB ({more.failed})")
    server.check()


def endless(server):
    """One that never ends its body is read no longer than the server reads behind an answer."""
    head = b"PUT /docs/endless HTTP/1.1\r\nhost: x\r\nx-vault-caller: ann\r\ncontent-length: 999999999999999\r\n\r\n"
    flood = Flooding(server, head, 1 << 50)
    time.sleep(0.1)
    server.check(GOING_ON)
    flood.join()


def deaf(server):
    """One that takes nothing of a large answer is let go."""
    content = bytes(1_048_576)
    server.wants(server.ask(put("large", content)), 200, b"x-amz-version-id", "a put of 1 MiB")
    with server.connect(received=4_096) as peer:
        peer.sendall(get("large"))
        time.sleep(0.1)
        server.check(UNTAKEN)
    if content_of(server.ask(get("large"))) != content:
        wrong("a get of 1 MiB")


def slow_reader(server):
    """One that takes a little of a large answer again and again is let go as soon."""
    server.wants(server.ask(put("large", bytes(1_048_576))), 200, b"x-amz-version-id", "a put of 1 MiB")
    over = threading.Event()

    def take(peer):
        with contextlib.suppress(OSError):
            while not over.wait(0.5) and peer.recv(4_096):
                pass

    with server.connect(received=4_096) as peer:
        peer.sendall(get("large"))
        taking = threading.Thread(target=take, args=[peer])
        taking.start()
        time.sleep(0.1)
        server.check(UNTAKEN)
        over.set()
        taking.join()


def worked(server):
    """How long the server has had a processor so far, in milliseconds, whatever else the machine does."""
    nanoseconds = pathlib.Path(f"/proc/{server.serving.pid}/schedstat").read_text().split()[0]
    return int(nanoseconds) / 1_000_000


def cost_of(server, head):
    """The milliseconds of a processor that the refusals of so many such heads take."""
    before = worked(server)
    for _ in range(BLANK_HEADS):
        with server.connect() as peer:
            peer.sendall(head)
            peer.shutdown(socket.SHUT_WR)
            server.wants(read_all(peer), 400, b"InvalidArgument", f"a head of {head[:2]!r} alone")
    return worked(server) - before


def blank_heads(server):
    """Heads of empty lines alone cost no more than ten times what as many heads of letters do."""
    letters = cost_of(server, b"G" * LONGEST_HEAD)
    for name, end in {"LF": b"\n", "CR LF": b"\r\n"}.items():
        cost = cost_of(server, end * (LONGEST_HEAD // len(end)))
        if cost > BLANK_FACTOR * letters:
            wrong(f"{BLANK_HEADS} heads of {name} take {cost:.1f} ms, and of letters {letters:.1f} ms")
    server.check()


def went_on(server, again):
    """How long an honest client waits for its answer after one that has its own and keeps the connection: that one
    sends a byte each `again` seconds, or none at all where this is None."""
    with server.connect() as peer:
        peer.sendall(put("kept", b"hello"))
        server.wants(peer.recv(65_536), 200, b"x-amz-version-id: ", "a put")
        began, ended = time.monotonic(), threading.Event()

        def honest():
            try:
                server.ask(get("kept"), LIMIT)
            finally:
                ended.set()

        waits = threading.Thread(target=honest)
        waits.start()
        with contextlib.suppress(BrokenPipeError, ConnectionResetError):
            while not ended.wait(again):
                peer.sendall(b"x")
        waits.join()
        return time.monotonic() - began


def kept_open(server):
    """One that has its answer, and keeps the connection, holds nobody up for long: less than half as long as one that
    goes on sending."""
    quiet, going_on = went_on(server, None), went_on(server, QUIET / 5)
    if quiet > going_on / 2:
        raise Late(f"after a quiet client one waits for {quiet:.1f} s, after one that goes on for {going_on:.1f} s")
    server.check()


def carry_out_together(client, numbers):
    """Has a client for each number at once. Late is raised where one of them was late."""
    late = []

    def carried_out(number):
        try:
            client(number)
        except Late as error:
            late.append(error)
        except OSError as error:
            wrong(f"client {number} of those at once: {error}")

    clients = [threading.Thread(target=carried_out, args=[it]) for it in numbers]
    for it in clients:
        it.start()
    for it in clients:
        it.join()
    if late:
        raise late[0]


def hundred(server):
    """A hundred at once, each with a put of its own and a get of it."""
    together = threading.Barrier(100)
    all_others = 100 * max(EACH, server.slack / TIMES)

    def client(number):
        key, content = f"at-once-{number}", f"content {number}".encode() * 100
        together.wait()
        try:
            answer = server.ask(put(key, content), all_others)
        finally:
            together.wait()
        server.wants(answer, 200, b"x-amz-version-id", "a put")
        if content_of(server.ask(get(key), all_others)) != content:
            wrong(f"a get of {key}")

    carry_out_together(client, range(100))


def no_descriptors(server):
    """Where no connection can be taken for want of descriptors, the next ones are taken once there are some."""
    server.check()
    leave_no_descriptors(server.serving.pid)
    # The system has set a descriptor aside for the connection that is waited for.
    server.wants(server.ask(get("none")), 404, b"NoSuchKey", "a get of what isn't there")
    with server.connect() as peer:
        peer.sendall(put("waits", b"hello"))
        before = worked(server)
        time.sleep(1)
        if server.serving.poll() is not None:
            wrong("it ended, with no descriptor left")
            return
        if worked(server) - before > 200:
            wrong(f"it worked for {worked(server) - before:.0f} ms, with no descriptor left")
        if select.select([peer], [], [], 0)[0]:
            wrong("it answers with no descriptor left")
        leave_descriptors(server.serving.pid)
        server.wants(server.read_at_once(peer), 200, b"x-amz-version-id: ", "a put that had to wait for a descriptor")
    server.check()


def killed(server):
    """Killed under load and started again, five times: whatever was answered is there."""
    answered = {}

    def client(name):
        for number in range(1_000_000):
            key, content = f"{name}-{number}", f"{name} {number} ".encode() * (number % 50)
            try:
                with server.connect() as peer:
                    peer.sendall(put(key, content))
                    answer = read_all(peer)
            except OSError:
                return
            if not answer.endswith(b"\r\n\r\n"):
                return
            server.wants(answer, 200, b"x-amz-version-id", "a put under load")
            answered[key] = content

    for turn in range(5):
        before = len(answered)
        clients = [threading.Thread(target=client, args=[f"turn-{turn}-{it}"]) for it in range(4)]
        for it in clients:
            it.start()
        time.sleep(1)
        end = time.monotonic() + LIMIT
        while len(answered) == before and time.monotonic() < end:
            time.sleep(0.1)
        server.kill()
        for it in clients:
            it.join()
        server.start()
    lost = [key for key, content in answered.items() if content_of(server.ask(get(key))) != content]
    if lost or len(answered) < 5:
        wrong(f"of {len(answered)} puts that were answered {lost} are lost")


LOST = (
    "the vault's file or its log isn't where it was opened: it was moved, removed or replaced, and no more changes are"
    " made\n"
)
FAILED = "serve: the vault's file failed: where requests are answered 500, start the server anew\n"


def lose(server, away):
    """Answers a put, and then takes away a file of the server: each later put is refused, and a get is answered as
    before. What failed is said once, after the first of them and before the next request comes. Returns the key of the
    first put, and its content."""
    server.puts += 1
    key, content = f"before-{server.puts}", f"content {server.puts}".encode()
    server.wants(server.ask(put(key, content)), 200, b"x-amz-version-id", "a put")
    away()
    for number in range(2):
        answer = server.ask(put(f"{key}-{number}", b"lost"))
        server.wants(answer, 500, b"Device", f"put {number} of a server that lost its files")
        if number == 0:
            server.says(LOST + FAILED)
    if content_of(server.ask(get(key))) != content:
        wrong("a server that lost its files doesn't read them")
    return key, content


def is_there(server, kept, how):
    """Kills a server that lost its files, and starts it again: what was answered is there, and nothing else."""
    said = server.kill()
    if said:
        wrong(f"{how}: the server goes on to say {said!r}")
    if printed("verify", server.file) != "sound\n":
        wrong(f"{how}: the vault isn't sound")
    server.start()
    key, content = kept
    if content_of(server.ask(get(key))) != content:
        wrong(f"{how}: what was answered before is lost")
    server.wants(server.ask(get(f"{key}-0")), 404, b"NoSuchKey", f"{how}: a get of what was refused")
    server.check()


def lost_files(server):
    """A file of the vault is moved, removed or replaced while it is served."""
    file, log, away = server.file, f"{server.file}-wal", f"{server.file}-away"
    for it in (file, log):
        kept = lose(server, lambda it=it: os.rename(it, away))
        os.rename(away, it)
        is_there(server, kept, f"{it} was moved, and moved back")
    # While the server runs, the system still has what was removed.
    kept = lose(server, lambda: os.remove(log))
    folder = pathlib.Path(f"/proc/{server.serving.pid}/fd")
    opened = [it for it in folder.iterdir() if os.readlink(it) == f"{log} (deleted)"]
    shutil.copy(opened[0], away)
    os.rename(away, log)
    is_there(server, kept, "the log was removed, and copied back out of the running server")

    def link():
        os.rename(file, away)
        os.symlink(away, file)

    # Whoever opens the link finds the file where the link leads, and no log beside it.
    kept = lose(server, link)
    os.rename(away, file)
    is_there(server, kept, "the file was moved, with a link to it in its place, and moved back")

    def replace():
        shutil.copy(file, away)
        os.rename(away, file)

    kept = lose(server, replace)
    is_there(server, kept, "the file was replaced by its copy")


# Each trial, with words for the server.
TRIALS = {
    "silent": (silent, []),
    "slow-head": (slow_head, []),
    "slow-body": (slow_body, []),
    "half-closed": (half_closed, []),
    "large-bodies": (large_bodies, []),
    "resetting": (resetting, []),
    "oversized": (oversized, []),
    "endless": (endless, []),
    "deaf": (deaf, []),
    "slow-reader": (slow_reader, []),
    "blank-heads": (blank_heads, []),
    "kept-open": (kept_open, []),
    "hundred": (hundred, []),
    "no-descriptors": (no_descriptors, ["--count", "1000"]),
    "lost-files": (lost_files, []),
    "killed": (killed, []),
}
# Those in which a client doesn't take a large answer, for which the server has little room then.
LARGE_ANSWERS = (deaf, slow_reader)
COMPILER = os.environ.get("CC", "cc")


@a_test_each(TRIALS)
class Serve(Case):
    is_alone = True

    def setUp(self):
        super().setUp()
        WRONGS.clear()
        make_office(self.folder / FILE, "put", "get")

    def look_at_once(self, name):
        """A trial over a copy of that vault. Late is raised where an answer was late."""
        trial, words = TRIALS[name]
        front = Loaded(PROGRAM, self.folder, "small_buffers").front(1) if trial in LARGE_ANSWERS else []
        with tempfile.TemporaryDirectory(dir=self.folder) as folder:
            shutil.copy(self.folder / FILE, folder)
            server = Server(f"{folder}/{FILE}", float(os.environ.get("TRIALS_SLACK", 2)))
            try:
                server.start(*words, front=front)
                server.measure()
                trial(server)
            except ConnectionError as error:
                wrong(f"{error}, and the server's status is {server.serving.poll()}")
            finally:
                server.kill()
            check(printed("verify", server.file) == "sound\n", "the vault isn't sound")

    def look_at(self, name):
        if TRIALS[name][0] in LARGE_ANSWERS and not shutil.which(COMPILER):
            self.skipTest(f"there is no {COMPILER}")
        late = []
        while len(late) < TRIES:
            try:
                self.look_at_once(name)
                break
            except Late as error:
                late.append(str(error))
        self.assertLess(len(late), TRIES, f"late each time: {late}")
        self.assertEqual(WRONGS, [])
