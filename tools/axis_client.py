"""A client of Axis: documents and queries over a pipe to `axis run STORE`.

    from axis_client import Axis

    with Axis("orders") as axis:
        axis.upsert({"id": "7", "total": 1250})
        for row in axis.query("SELECT c.id FROM c WHERE c.total > @least", least=1000):
            print(row["id"])

It needs Python 3.9 or later and its standard library alone. Each call is one line of docs/LINES.md, and what it changed
is durable when it returns. What goes wrong is an exception, and each is an `AxisError`:

    Refused        the line was answered `err number word` and changed nothing
      Conflict     ... since a document of that id is there
      Absent       ... since no document of that id is there
    Unsendable     a value that no line can carry, with the path to it; nothing was sent
    ProgramEnded   the program ended, with its status and its words

Numbers are whole ones of 64 bits. A float is unsendable, also 2.0: keep cents, or thousandths.

One process holds a store: while an `Axis` is open, no other program opens its store. An `Axis` is for one thread at a
time. An interrupt inside a call (Ctrl-C) ends the program; what had been acknowledged is there.
"""
from __future__ import annotations

import collections
import contextlib
import json
import numbers
import os
import pathlib
import queue
import re
import subprocess
import threading
from typing import Any, Callable, Deque, Dict, Iterable, Iterator, List, Optional, Tuple, TypeVar, Union

Document = Dict[str, Any]
ValuePath = Tuple[Union[str, int], ...]
Item = TypeVar("Item")

ENDINGS = ("root", "a", "b")
IN_FLIGHT = 1_000
PIECE = 1 << 16
LEAST_NUMBER = -(2**63)
GREATEST_NUMBER = 2**63 - 1
MOST_LEVELS = 100
ENCODER = json.JSONEncoder(ensure_ascii=False, separators=(",", ":"))
HELD = "another program holds the store"

MEANINGS = {
    1: "a line has at most 262,144 bytes",
    2: "no line of this program: it is CREATE, UPSERT, REPLACE, DELETE, READ or QUERY in capitals, a space, and more",
    3: "what stands behind the word is no JSON",
    4: "a number is not whole or not of 64 bits; keep cents, or thousandths",
    5: "an id is a text of 1 to 255 bytes without control characters, and a document is a JSON map with a member id",
    6: "the document or the body is too large or nests too deep; see docs/LINES.md",
    7: "a document of that id is there; UPSERT and REPLACE take its place",
    8: "no document of that id is there",
    9: "memory ran out",
    10: "no query of the language; see docs/QUERY.md",
    11: "no index keeps this order; order by one path",
    15: "the store is full: it holds at most 1,048,576 documents",
}

STATUSES = {
    2: "the name of a store is UTF-8, is not empty and does not begin with -",
    4: "a read of the lines failed",
    5: "a write of the replies failed",
    6: "that file of the store (0 root, 1 a, 2 b) is outside the format at that byte",
    7: "the store is of that version of the format, which this program does not know",
    8: "memory ran out",
    10: "the lines had more than 2^40 bytes",
}


class AxisError(Exception):
    """What goes wrong with a store."""


class Refused(AxisError):
    """A line was answered `err number word`, and changed nothing.

    >>> try:
    ...     axis.query("SELECT c.total")
    ... except Refused as refusal:
    ...     print(refusal.number, refusal.word, "-", refusal.meaning)
    10 query - no query of the language; see docs/QUERY.md
    """

    def __init__(self, number: int, word: str) -> None:
        self.number = number
        self.word = word
        self.meaning = MEANINGS.get(number, "see docs/LINES.md")
        super().__init__(f"err {number} {word}: {self.meaning}")


class Conflict(Refused):
    """A document of that id is there.

    >>> axis.create({"id": "7"})
    >>> try:
    ...     axis.create({"id": "7"})
    ... except Conflict:
    ...     print("there already")
    there already
    """


class Absent(Refused):
    """No document of that id is there.

    >>> try:
    ...     axis.delete("7")
    ... except Absent:
    ...     print("not there")
    not there
    """


class Unsendable(AxisError):
    """A value that no line can carry, with the path to it. Nothing was sent.

    >>> try:
    ...     axis.create({"id": "7", "lines": [{"price": 12.5}]})
    ... except Unsendable as error:
    ...     print(error)
    lines[0].price: 12.5 is no whole number of 64 bits
    """

    def __init__(self, path: ValuePath, value: Any, reason: str) -> None:
        self.path = path
        self.value = value
        self.reason = reason
        super().__init__(f"{path_text(path)}: {reason}" if path else reason)


class ProgramEnded(AxisError):
    """The program ended: `status` is its exit code, `words` is what it said on standard error.

    >>> try:
    ...     Axis("no such folder/orders")
    ... except ProgramEnded as end:
    ...     print(end.status, end.words.splitlines()[0])
    3 disk fault
    """

    def __init__(self, status: int, words: str) -> None:
        self.status = status
        self.words = words
        lines = words.splitlines() or ["it said nothing"]
        if status < 0:
            super().__init__(f"the program was ended by signal {-status}")
        elif status in STATUSES:
            super().__init__(f"{lines[0]}: {STATUSES[status]}")
        elif status:
            way_out = "; end that one first" if lines[-1].endswith(HELD) else ""
            super().__init__(": ".join(lines) + way_out)
        else:
            super().__init__("the program ended and left a line without its reply")


def path_text(path: ValuePath, each: bool = False) -> str:
    """How a path is written; with `each`, every position is `[]`.

    >>> path_text(("lines", 0, "unit price"))
    'lines[0]["unit price"]'
    >>> path_text(("lines", 0, "price"), each=True)
    'lines[].price'
    """
    text = ""
    for step in path:
        if isinstance(step, int):
            text += "[]" if each else f"[{step}]"
        elif re.fullmatch(r"[^\W\d]\w*", step):
            text += f".{step}" if text else step
        else:
            text += f"[{json.dumps(step)}]"
    return text


def check(value: Any, path: ValuePath = ()) -> None:
    """Refuses a value that no line can carry, with the path to it.

    >>> check({"id": "7", "total": 1250})
    >>> check({"id": "7", "total": 2**63})
    Traceback (most recent call last):
    axis_client.Unsendable: total: 9223372036854775808 is no whole number of 64 bits
    """
    if value is None or isinstance(value, (str, bool)):
        return
    if isinstance(value, int):
        if not LEAST_NUMBER <= value <= GREATEST_NUMBER:
            raise Unsendable(path, value, f"{shown(value)} is no whole number of 64 bits")
    elif isinstance(value, (dict, list, tuple)):
        if len(path) >= MOST_LEVELS:
            raise Unsendable((), value, f"it nests deeper than {MOST_LEVELS} levels")
        if isinstance(value, dict):
            for name, member in value.items():
                if not isinstance(name, str):
                    raise Unsendable(path, name, f"the name {name!r} of a member is no text")
                check(member, (*path, name))
        else:
            for position, element in enumerate(value):
                check(element, (*path, position))
    elif isinstance(value, numbers.Number):
        raise Unsendable(path, value, f"{shown(value)} is no whole number of 64 bits")
    else:
        raise Unsendable(path, value, f"a {type(value).__name__} is no JSON")


def shown(number: Any) -> str:
    """A number for people, however long it is.

    >>> shown(2**1000)
    'a number of 1001 bits'
    """
    if isinstance(number, int) and number.bit_length() > 200:
        return f"a number of {number.bit_length()} bits"
    text = str(number)
    return text if len(text) <= 60 else f"{text[:60]}.."


def store_files(store: Union[str, pathlib.Path]) -> Tuple[pathlib.Path, ...]:
    """The paths of the three files of a store.

    >>> [path.name for path in store_files("orders")]
    ['orders.root', 'orders.a', 'orders.b']
    """
    return tuple(pathlib.Path(f"{store}.{ending}") for ending in ENDINGS)


def find_program(program: Union[str, pathlib.Path, None] = None) -> str:
    """The program: the one given, else the one that AXIS names in the environment, else the script `axis` of the project.

    >>> find_program("/usr/local/bin/axis")
    '/usr/local/bin/axis'
    """
    beside = pathlib.Path(__file__).resolve().parent.parent / "axis"
    return str(program or os.environ.get("AXIS") or beside)


class Rows(Iterator[Any]):
    """The rows of an answer, one after another, each as `json` reads it.

    They are those of the moment of the query. A call that is made meanwhile reads the rest into memory, so the rows can
    be gone through while documents are written. Rows that are not wanted any more need no care.

    >>> axis.create({"id": "7", "total": 1250})
    >>> for row in axis.query("SELECT * FROM c"):
    ...     axis.replace({"id": row["id"], "total": 0})
    >>> axis.read("7")
    {'id': '7', 'total': 0}
    """

    def __init__(self, read_line: Callable[[], bytes], first: bytes) -> None:
        self._read_line = read_line
        self._lines: Deque[bytes] = collections.deque([first])
        self._is_read = not first.startswith(b"row ")
        self._given = 0

    def __next__(self) -> Any:
        text = self._next_text()
        if text is None:
            raise StopIteration
        return _value(text)

    def texts(self) -> Iterator[bytes]:
        """The rows that are left as the program writes them, in UTF-8.

        >>> axis.create({"id": "7", "total": 1250})
        >>> list(axis.query("SELECT * FROM c").texts())
        [b'{"id":"7","total":1250}']
        """
        return iter(self._next_text, None)

    def read_rest(self) -> None:
        """Reads the rows that are left into memory.

        >>> rows = axis.query("SELECT * FROM c")
        >>> rows.read_rest()
        """
        while not self._is_read:
            self._lines.append(self._next_line())

    def _next_text(self) -> Optional[bytes]:
        """The text of the next row; none behind the last."""
        if not self._lines and self._is_read:
            return None
        line = self._lines.popleft() if self._lines else self._next_line()
        if line.startswith(b"row "):
            self._given += 1
            return line[len(b"row ") :]
        if line != b"end %d" % self._given:
            raise _unexpected(line)
        return None

    def _next_line(self) -> bytes:
        line = self._read_line()
        self._is_read = not line.startswith(b"row ")
        return line


class Axis:
    """A store that is open, by a program of its own. It is made where there is none.

    `program` is the program, or the script that runs it; without it `find_program` says which. With `must_exist` a store
    of which no file is there is an AxisError, and is not made.

    >>> with Axis(new_store) as orders:
    ...     orders.create({"id": "7", "total": 1250})
    ...     orders.read("7")
    {'id': '7', 'total': 1250}
    """

    def __init__(
        self,
        store: Union[str, pathlib.Path],
        program: Union[str, pathlib.Path, None] = None,
        must_exist: bool = False,
    ) -> None:
        if must_exist and not any(path.exists() for path in store_files(store)):
            raise AxisError(f"there is no store {store}: none of its files {store}.root, {store}.a, {store}.b is there")
        words = [find_program(program), "run", str(store)]
        try:
            # In a session of its own the program does not see the interrupts that a terminal sends.
            self._process = subprocess.Popen(
                words, stdin=subprocess.PIPE, stdout=subprocess.PIPE, stderr=subprocess.PIPE, start_new_session=True
            )
        except OSError as error:
            raise AxisError(f"the program {words[0]} does not run: {error.strerror}") from None
        self._is_open = True
        self._is_busy = False
        self._answer: Optional[Rows] = None
        # An empty id is refused as soon as the store is open, so one that does not open is told here.
        with contextlib.suppress(Refused):
            self.send("READ ")

    def __enter__(self) -> Axis:
        return self

    def __exit__(self, kind: Any, error: Any, trace: Any) -> None:
        if kind is None:
            self.close()
        else:
            with contextlib.suppress(AxisError):
                self.close()

    def create(self, document: Document) -> None:
        """Creates a document; a Conflict where one of that id is there.

        >>> axis.create({"id": "7", "total": 1250})
        """
        self.send(_line("CREATE", document))

    def upsert(self, document: Document) -> None:
        """Puts a document in the place of the one of that id, or creates it.

        >>> axis.upsert({"id": "7", "total": 1250})
        """
        self.send(_line("UPSERT", document))

    def replace(self, document: Document) -> None:
        """Puts a document in the place of the one of that id; Absent where there is none.

        >>> axis.create({"id": "7", "total": 1250})
        >>> axis.replace({"id": "7", "total": 0})
        """
        self.send(_line("REPLACE", document))

    def delete(self, id: str) -> None:
        """Deletes the document of that id; Absent where there is none.

        >>> axis.create({"id": "7", "total": 1250})
        >>> axis.delete("7")
        """
        self.send(_id_line("DELETE", id))

    def read(self, id: str) -> Document:
        """The document of that id; Absent where there is none.

        >>> axis.create({"id": "7", "total": 1250})
        >>> axis.read("7")["total"]
        1250
        """
        return self.send(_id_line("READ", id))

    def query(self, text: str, /, **parameters: Any) -> Rows:
        """The rows that a query answers. Each parameter is given by its name without the `@`.

        >>> axis.create({"id": "7", "total": 1250})
        >>> list(axis.query("SELECT VALUE c.id FROM c WHERE c.total > @least", least=1000))
        ['7']
        """
        for name, value in parameters.items():
            check(value, (f"@{name}",))
        given = [{"name": f"@{name}", "value": value} for name, value in parameters.items()]
        return self.send(_line("QUERY", {"query": text, "parameters": given}))

    def send(self, line: Union[str, bytes]) -> Any:
        """Sends a line of docs/LINES.md as it is, without its newline. It gives what the reply says: None for `ok`, the
        document for `doc`, Rows for rows.

        >>> axis.send('UPSERT {"id":"7"}')
        >>> axis.send("READ 7")
        {'id': '7'}
        """
        sent = line if isinstance(line, bytes) else line.encode("utf-8", "surrogatepass")
        if b"\n" in sent:
            raise ValueError("a line has no newline")
        self._read_answer()
        with self._alone():
            self._write(sent + b"\n")
            reply = self._read_line()
            if reply.startswith((b"row ", b"end ")):
                self._answer = Rows(self._read_row_line, reply)
                return self._answer
            if reply.startswith(b"doc "):
                return _value(reply[len(b"doc ") :])
            if reply != b"ok":
                raise _refusal(reply)
            return None

    def upsert_many(
        self,
        items: Iterable[Item],
        document_of: Callable[[Item], Document] = lambda item: item,
        answered: Optional[Callable[[Item, Optional[AxisError]], None]] = None,
        in_flight: int = IN_FLIGHT,
    ) -> int:
        """Upserts many documents, and gives how many were upserted. Lines are sent ahead of their replies, at most
        `in_flight` of them.

        `document_of` gives the document of an item; without it the items are the documents. `answered` is called for each
        item, in their order, with what it was refused by, or None. Without it the first that is refused is raised. After
        that, and after an exception of `items`, no more lines are sent; those that were have been answered.

        >>> axis.upsert_many({"id": str(number)} for number in range(5_000))
        5000
        """
        self._read_answer()
        with self._alone():
            return _Ahead(self, answered or _raise_refusal, in_flight).upsert(items, document_of)

    def close(self) -> None:
        """Ends the program, which reads no more lines. The rest of an answer is left out.

        >>> axis.close()
        """
        if self._is_open:
            status, words = self._finish()
            if status:
                raise ProgramEnded(status, words)

    def kill(self) -> None:
        """Ends the program at once, also in the middle of a query. What was acknowledged is there.

        >>> axis.kill()
        """
        if self._is_open:
            self._process.kill()
            self._finish()

    @property
    def is_open(self) -> bool:
        """Whether calls can be made: false behind `close`, and where the program has ended.

        >>> axis.is_open
        True
        """
        return self._is_open

    @contextlib.contextmanager
    def _alone(self) -> Iterator[None]:
        """Around each use of the pipes: one at a time. What leaves a line or a reply in pieces ends the program."""
        if not self._is_open:
            raise AxisError("the store was closed, or its program has ended")
        if self._is_busy:
            raise AxisError("one call at a time: this one is made inside of another, or by another thread")
        try:
            self._is_busy = True
            yield
        except _NoReply:
            raise ProgramEnded(*self._finish()) from None
        except Exception:
            raise
        except BaseException:
            self.kill()
            raise
        finally:
            self._is_busy = False

    def _read_answer(self) -> None:
        """Reads the rest of the last answer, before a call."""
        if self._answer is not None and self._is_open:
            self._answer.read_rest()
        self._answer = None

    def _read_row_line(self) -> bytes:
        """The next line of an answer. Without its end nobody knows where the next reply begins."""
        with self._alone():
            line = self._read_line()
            if not line.startswith((b"row ", b"end ")):
                self.kill()
                raise _unexpected(line)
            return line

    def _write(self, lines: bytes) -> None:
        """Sends lines. A short one that is alone is handed on in one piece, so that a DELETE never arrives cut."""
        try:
            self._process.stdin.write(lines)
            self._process.stdin.flush()
        except BrokenPipeError:
            raise _NoReply from None

    def _read_line(self) -> bytes:
        """The next line of a reply, without its newline."""
        return _whole(self._process.stdout.readline())

    def _finish(self) -> Tuple[int, str]:
        """Lets the program end: its status and its words on standard error."""
        self._is_open = False
        process = self._process
        with contextlib.suppress(BrokenPipeError):
            process.stdin.close()
        with process.stdout, process.stderr:
            while process.stdout.read(PIECE):
                pass
            words = process.stderr.read().decode("utf-8", "replace")
        return process.wait(), words


class _Ahead:
    """Lines sent ahead of their replies. A thread reads the replies, so that full pipes never make both programs wait."""

    def __init__(self, axis: Axis, answered: Callable[[Any, Optional[AxisError]], None], in_flight: int) -> None:
        self._axis = axis
        self._answered = answered
        self._in_flight = in_flight
        self._enough = max(in_flight // 2, 1)
        # Items whose answer is to come, each with what it was refused by before it was sent.
        self._waiting: Deque[Tuple[Any, Optional[AxisError]]] = collections.deque()
        self._unsent: List[bytes] = []
        # How many lines were sent whose replies were not taken yet.
        self._sent = 0
        self._has_ended = False
        # How many more replies the thread reads; 0 ends it.
        self._expected: queue.SimpleQueue[int] = queue.SimpleQueue()
        # Replies as the thread hands them on, many at once where they come so; None where the program has ended.
        self._arrived: queue.SimpleQueue[List[Optional[bytes]]] = queue.SimpleQueue()
        self._replies: Deque[Optional[bytes]] = collections.deque()
        self._upserted = 0

    def upsert(self, items: Iterable[Any], document_of: Callable[[Any], Document]) -> int:
        reader = threading.Thread(target=self._read_replies, daemon=True)
        reader.start()
        try:
            self._take_all(items, document_of)
        except Exception:
            raise
        except BaseException:
            # A line may be in pieces, and then its reply never comes.
            self._axis.kill()
            raise
        finally:
            self._expected.put(0)
            reader.join()
        return self._upserted

    def _take_all(self, items: Iterable[Any], document_of: Callable[[Any], Document]) -> None:
        for item in items:
            self._answer_some()
            try:
                self._unsent.append(_line("UPSERT", document_of(item)) + b"\n")
                self._waiting.append((item, None))
            except AxisError as error:
                self._waiting.append((item, error))
            if not self._sent or len(self._unsent) >= self._enough:
                self._send()
            if self._has_ended:
                break
        self._send()
        while self._waiting:
            self._answer_next()

    def _send(self) -> None:
        """Sends the lines that are ready, in one piece."""
        count = len(self._unsent)
        if count:
            self._sent += count
            self._expected.put(count)
            lines, self._unsent = self._unsent, []
            try:
                self._axis._write(b"".join(lines))
            except _NoReply:
                self._has_ended = True  # The first line without a reply tells it.

    def _answer_some(self) -> None:
        """Tells the answers that are there; where too many lines are in flight, waits for half of them."""
        while self._waiting and (self._waiting[0][1] is not None or self._replies or not self._arrived.empty()):
            self._answer_next()
        if len(self._waiting) >= self._in_flight:
            self._send()
            while len(self._waiting) > self._enough:
                self._answer_next()

    def _answer_next(self) -> None:
        """Tells the oldest item its answer, as soon as it is there."""
        item, error = self._waiting.popleft()
        if error is None:
            while not self._replies:
                self._replies.extend(self._arrived.get())
            reply = self._replies.popleft()
            if reply is None:
                raise _NoReply
            self._sent -= 1
            error = None if reply == b"ok" else _refusal(reply)
        if error is None:
            self._upserted += 1
        self._answered(item, error)

    def _read_replies(self) -> None:
        missing, rest = 0, b""
        with contextlib.suppress(ValueError):  # The output was closed, and nobody waits for replies.
            for count in iter(self._expected.get, 0):
                missing += count
                while missing > 0:
                    piece = self._axis._process.stdout.read1(PIECE)
                    replies: List[Optional[bytes]] = [None] * missing
                    if piece:
                        *replies, rest = (rest + piece).split(b"\n")
                    missing -= len(replies)
                    self._arrived.put(replies)


class _NoReply(Exception):
    """The program takes no more lines or has left one without its reply: it has ended."""


def _raise_refusal(item: Any, error: Optional[AxisError]) -> None:
    if error is not None:
        raise error


def _line(word: str, value: Any) -> bytes:
    """The line with that JSON."""
    check(value)
    # A lone surrogate makes a text that is no UTF-8, which the program refuses as no JSON.
    return f"{word} {ENCODER.encode(value)}".encode("utf-8", "surrogatepass")


def _id_line(word: str, id: str) -> bytes:
    """The line with that id. One with control characters is refused here: a newline would end the line."""
    if not isinstance(id, str) or re.search(r"[\x00-\x1f\x7f]", id):
        raise _refusal(b"err 5 id")
    return f"{word} {id}".encode("utf-8", "surrogatepass")


def _whole(line: bytes) -> bytes:
    """A line of the output without its newline; one that has none was cut by the end of the program."""
    if not line.endswith(b"\n"):
        raise _NoReply
    return line[:-1]


def _value(text: bytes) -> Any:
    """What the JSON of a row or a document is."""
    try:
        return json.loads(text.decode("utf-8"))
    except (ValueError, RecursionError):
        raise _unexpected(text) from None


def _refusal(reply: bytes) -> AxisError:
    """The refusal that a reply says."""
    found = re.fullmatch(rb"err ([0-9]+) ([a-z]+)", reply)
    if found is None:
        return _unexpected(reply)
    number = int(found[1])
    return {7: Conflict, 8: Absent}.get(number, Refused)(number, found[2].decode())


def _unexpected(text: bytes) -> AxisError:
    shown = text[:60].decode("utf-8", "backslashreplace")
    return AxisError(f"no reply of axis: {shown!r}; the program is another one, or a document of the store is damaged")
