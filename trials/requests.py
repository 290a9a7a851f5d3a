"""Texts of requests, each sent to a server over a vault of its own, and what it answers.

A text is `examples/requests/NAME.txt`. It has requests, each a line, and after them the answer to each of these,
in a line that begins with two spaces; an empty line goes before requests of another answer. `|` stands for CR LF, `\\n`
for a line feed, `\\t` for a tab, `{TEXT*N}` for that text N times, NOTHING for no byte at all, and ` .. ` in an answer
for whatever is between its beginning and its end. Where an answer is to have `date: NOW` or `"admitted":"NOW"`, it has a
moment, as RFC 9110 writes a date or as `YYYY-MM-DDTHH:MM:SSZ`, that is the machine's but for two minutes. Lines that begin
with `#` say something.

Each text has a vault of its own, which begins with the lines of `examples/requests/opening.jsonl`, and each request a
connection of its own: its client sends it, ends its sending, and reads up to the end. After the last request the
server ends by itself, and the vault is sound. Where there is curl, `examples/requests.sh` gets the answers that are
written beside it too.
"""

import re
from datetime import datetime, timedelta, timezone

from trials.parts.program import EXAMPLES, PROGRAM, Case, a_test_each, check, needs, ran_words
from trials.parts.servers import answer_to, serving

REQUESTS = EXAMPLES / "requests"
FILE = "records.vault"
STANDS_FOR = (("|", "\r\n"), ("\\n", "\n"), ("\\t", "\t"))
# Where a moment stands in an answer, and the form that it has there.
MOMENTS = (
    (re.compile(rb"(?<=\r\ndate: )[^\r]*"), "%a, %d %b %Y %H:%M:%S GMT"),
    (re.compile(rb'(?<="admitted":")[^"]*'), "%Y-%m-%dT%H:%M:%SZ"),
)
NEAR = timedelta(minutes=2)
REPEATED = re.compile(r"\{([^{}*]+)\*(\d+)\}")


def exchanges(text):
    """Each request of a text, with the answer that it is to get."""
    lines = [it for it in text.split("\n") if not it.startswith("#")]
    for part in "\n".join(lines).strip("\n").split("\n\n"):
        *requests, wanted = part.split("\n")
        if not requests or not wanted.startswith("  ") or any(it.startswith("  ") for it in requests):
            check(False, f"these are no requests followed by their answers: {part!r}")
        yield from ((it, wanted[2:]) for it in requests)


def bytes_of(text):
    """What a request or an answer stands for."""
    if text == "NOTHING":
        return b""
    text = REPEATED.sub(lambda it: it[1] * int(it[2]), text)
    for mark, meant in STANDS_FOR:
        text = text.replace(mark, meant)
    return text.encode()


def now_for(told, form):
    """NOW for a moment that is the machine's. Fails where it is another one, or isn't written in that form."""
    try:
        moment = datetime.strptime(told.decode(), form)
        is_near = abs(moment - datetime.now(timezone.utc).replace(tzinfo=None)) <= NEAR
    except ValueError:
        raise AssertionError(f"{told!r} is no moment") from None
    # Python reads other forms too, and writes this one alone.
    check(is_near and moment.strftime(form).encode() == told, f"{told!r} isn't the machine's moment")
    return b"NOW"


def with_now(answer):
    """The answer with NOW for each moment in it."""
    for place, form in MOMENTS:
        answer = place.sub(lambda it: now_for(it[0], form), answer)
    return answer


def compare(given, wanted):
    """Fails unless an answer is the wanted one, or begins and ends as that does where ` .. ` stands in it."""
    front, gap, end = wanted.partition(b" .. ")
    is_framed = given.startswith(front) and given.endswith(end) and len(given) >= len(front) + len(end)
    check(is_framed if gap else given == wanted, f"wanted {wanted!r}, got {given!r}")


@a_test_each(sorted(it.stem for it in REQUESTS.glob("*.txt")))
class Requests(Case):
    def setUp(self):
        super().setUp()
        opening = (REQUESTS / "opening.jsonl").read_bytes()
        self.assertEqual(self.ran("init", FILE), (0, "", ""))
        self.assertEqual(self.ran("replay", FILE, given=opening), (0, '{"ok":{}}\n' * opening.count(b"\n"), ""))

    def look_at(self, name):
        """Sends each request of a text, and compares its answer."""
        pairs = list(exchanges((REQUESTS / f"{name}.txt").read_text()))
        with serving(FILE, "--count", str(len(pairs)), folder=self.folder) as port:
            for request, wanted in pairs:
                with self.subTest(request):
                    compare(with_now(answer_to(port, bytes_of(request))), bytes_of(wanted))
        self.is_sound(FILE)


class ByCurl(Case):
    @needs("curl")
    def test_requests_by_curl(self):
        done = ran_words(EXAMPLES / "requests.sh", PROGRAM)
        self.assertEqual(done.status, 0, done)
        self.assertEqual(done.out, (EXAMPLES / "requests.out").read_text())
