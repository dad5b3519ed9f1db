"""Messages of the Debug Adapter Protocol: JSON after a header that says its length."""

import json
import re

# No client sends more: a source file is named, not sent.
MOST = 4 << 20
LENGTH = re.compile(rb"content-length:\s*(\d{1,9})\s*", re.IGNORECASE)


class WireError(Exception):
    """Bytes that are no message; `fatal` where nobody can know at which byte the next one begins."""

    def __init__(self, text, fatal):
        super().__init__(text)
        self.fatal = fatal


class Wire:
    """Reads messages from one stream and writes them to another."""

    def __init__(self, source, sink):
        self.source, self.sink, self.sent = source, sink, 0

    def read(self):
        """Returns the next message, or None at the end; raises WireError where what comes is none."""
        length, lines = None, 0
        while True:
            line = self.source.readline(4096)
            if not line:
                if lines:
                    raise WireError("the input ends within a header", True)
                return None
            lines += 1
            if not line.endswith(b"\n") or lines > 32:
                raise WireError("a header's line is too long, or there are too many", True)
            if not line.strip():
                break
            if found := LENGTH.fullmatch(line.rstrip(b"\r\n")):
                length = int(found[1])
        if length is None:
            raise WireError("a header has no Content-Length", True)
        if length > MOST:
            raise WireError(f"a message of {length} bytes is longer than {MOST}", True)
        body = self.source.read(length)
        if len(body) < length:
            raise WireError("the input ends within a message", True)
        try:
            message = json.loads(body)
        except (ValueError, RecursionError) as error:
            raise WireError(f"a message is no JSON: {error}", False) from error
        if not isinstance(message, dict):
            raise WireError("a message is no object", False)
        return message

    def write(self, message):
        """Numbers and writes a message."""
        self.sent += 1
        body = json.dumps({"seq": self.sent, **message}).encode()
        self.sink.write(b"Content-Length: %d\r\n\r\n%s" % (len(body), body))
        self.sink.flush()
