"""Messages between an editor and a language server: JSON-RPC with Content-Length headers, over two streams of bytes."""
import json
import os
import threading

UNREADABLE, NO_REQUEST, NO_METHOD, BAD_WORDS, FAILED, NOT_READY = -32700, -32600, -32601, -32602, -32603, -32002
LONGEST, LONGEST_LINE, PIECE = 1 << 26, 4096, 1 << 20


class Unreadable(Exception):
    """A message that is no JSON object, or has no length, or is too long: a sentence. The next one can be read."""


class Cut(Exception):
    """The input ends within a message."""


class Input:
    """The bytes of a file descriptor. It has no lock, so a process can end while a thread waits for more."""

    def __init__(self, number):
        self.number, self.kept = number, bytearray()

    def more(self):
        piece = os.read(self.number, PIECE)
        self.kept += piece
        return bool(piece)

    def taken(self, count):
        found = bytes(self.kept[:count])
        del self.kept[:count]
        return found

    def read(self, count):
        while len(self.kept) < count and self.more():
            pass
        return self.taken(count)

    def readline(self, most):
        end = self.kept.find(b'\n')
        while end < 0 and len(self.kept) < most and self.more():
            end = self.kept.find(b'\n')
        return self.taken(min(most, end + 1 if end >= 0 else most))


class Channel:
    """Reads messages from one stream and writes to the other."""

    def __init__(self, source, sink):
        self.source, self.sink, self.left = source, sink, 0
        self.writing = threading.Lock()

    def receive(self):
        """The next message, or None at the end. Raises Unreadable, or Cut."""
        self.skip()
        length = self.head()
        if length is None:
            return None
        if length > LONGEST:
            self.left = length
            raise Unreadable(f'a message of more than {LONGEST:,} bytes is passed over')
        body = self.source.read(length)
        if len(body) < length:
            raise Cut
        try:
            message = json.loads(body, parse_constant=no_constant)
        except (ValueError, RecursionError):
            raise Unreadable('this is no JSON') from None
        if not isinstance(message, dict):
            raise Unreadable('a message is a JSON object, one at a time')
        return message

    def skip(self):
        """Passes over what is left of a message that is too long."""
        while self.left:
            piece = self.source.read(min(self.left, PIECE))
            if not piece:
                raise Cut
            self.left -= len(piece)

    def head(self):
        """The length of the next message by its header lines, or None at the end."""
        length, lines = None, 0
        while True:
            line = self.source.readline(LONGEST_LINE)
            if not line:
                if lines:
                    raise Cut
                return None
            name, _, value = line.decode('ascii', 'replace').strip().partition(':')
            lines += bool(name)
            if name.lower() == 'content-length' and value.strip().isdecimal():
                length = int(value.strip()[:40])        # which is long enough for what is passed over
            elif not name and lines:
                if length is None:
                    raise Unreadable('a message begins with a line `Content-Length: N`')
                return length

    def send(self, message):
        body = json.dumps({'jsonrpc': '2.0', **message}).encode()
        with self.writing:
            self.sink.write(b'Content-Length: %d\r\n\r\n' % len(body) + body)
            self.sink.flush()

    def answer(self, number, result):
        self.send({'id': number, 'result': result})

    def refuse(self, number, code, text):
        self.send({'id': number, 'error': {'code': code, 'message': text}})

    def tell(self, method, params):
        self.send({'method': method, 'params': params})


def no_constant(word):
    raise ValueError(word)
