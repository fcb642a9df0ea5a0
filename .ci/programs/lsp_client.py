"""A client of `wacx lsp`, which scripts of this folder import: a run of the server, messages, and texts after edits."""
import json
import queue
import subprocess
import threading

# How many seconds an answer may take.
ANSWER = 60


def framed(message):
    body = message if isinstance(message, bytes) else json.dumps(message, ensure_ascii=False).encode()
    return b"Content-Length: %d\r\n\r\n%s" % (len(body), body)


def request(number, method, **params):
    return {"jsonrpc": "2.0", "id": number, "method": method, "params": params}


def notice(method, **params):
    return {"jsonrpc": "2.0", "method": method, "params": params}


def offset(text, place):
    """The offset of a place in a text, in characters. Columns are counted in units of UTF-16."""
    lines = text.split("\n")
    if place["line"] >= len(lines):
        return len(text)
    units = lines[place["line"]].encode("utf-16-le")[:2 * place["character"]]
    return sum(len(line) + 1 for line in lines[:place["line"]]) + len(units.decode("utf-16-le", errors="ignore"))


def applied(text, edits):
    """A text after edits of it, as a plain model has it."""
    for edit in sorted(edits, key=lambda edit: offset(text, edit["range"]["start"]), reverse=True):
        start, end = (offset(text, edit["range"][side]) for side in ("start", "end"))
        text = text[:start] + edit["newText"] + text[end:]
    return text


class Server:
    """A run of the program, and what it wrote, message by message."""

    program = None
    last = None

    def __init__(self):
        pipe = subprocess.PIPE
        self.process = subprocess.Popen([self.program, "lsp", "--stdio"], stdin=pipe, stdout=pipe, stderr=pipe)
        Server.last = self
        self.messages = queue.Queue()
        threading.Thread(target=self.listen, daemon=True).start()

    def listen(self):
        output = self.process.stdout
        while True:
            length = None
            for line in iter(output.readline, b""):
                if line == b"\r\n":
                    break
                name, _, value = line.partition(b":")
                if name.lower() == b"content-length":
                    length = int(value)
            if length is None:
                self.messages.put(None)
                return
            self.messages.put(json.loads(output.read(length)))

    def write(self, data):
        self.process.stdin.write(data)
        self.process.stdin.flush()

    def send(self, message):
        self.write(framed(message))

    def receive(self):
        """The next message, and None after the last."""
        return self.messages.get(timeout=ANSWER)

    def ask(self, number, method, **params):
        """The result of a request, or its error."""
        self.send(request(number, method, **params))
        reply = self.receive()
        if reply is None or reply.get("id") != number:
            raise ValueError(f"no reply to {method}, but {reply}")
        return reply.get("result", reply.get("error"))

    def end(self):
        """Closes the input: the status, and the lines on standard error."""
        self.process.stdin.close()
        status = self.process.wait(timeout=ANSWER)
        return status, self.process.stderr.read().decode().splitlines()
