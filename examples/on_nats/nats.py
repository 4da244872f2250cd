"""The least client of a cluster of NATS with JetStream: its text protocol over a socket, by the standard library alone.

Where a connection breaks or an answer does not come, another server is taken. What was on the way may be lost then, or done although
no answer tells so. `api`, and what stands on it, asks until the cluster has answered. What is read may be old, where a server was held
up and does not know that another one leads. A stream has one subject, its name, and numbers from 1 on.
"""
import base64
import json
import os
import socket
import time

Message = tuple[str, str, object]  # the subject, where to answer, the value
WRONG_LAST = 10071  # the code of JetStream where the last message is another one than was expected


class Refused(Exception):
    """Another process has put something there meanwhile."""


class Nats:
    def __init__(self, ports: list[int], subjects: list[str]) -> None:
        self.inbox = "_INBOX." + os.urandom(8).hex()
        self.ports, self.subjects = sorted(ports, key=lambda _: os.urandom(4)), subjects + [self.inbox + ".>"]
        self.asked, self.waiting = 0, []  # what came while an answer was waited for
        self.connect()

    def connect(self) -> None:
        hello = 'CONNECT {"verbose":false,"headers":true,"no_responders":true}\r\n'
        hello += "".join(f"SUB {subject} {number}\r\n" for number, subject in enumerate(self.subjects))
        while True:
            self.ports.append(self.ports.pop(0))
            try:
                self.socket, self.buffer = socket.create_connection(("127.0.0.1", self.ports[0]), 1), b""
                self.socket.setsockopt(socket.IPPROTO_TCP, socket.TCP_NODELAY, 1)
                return self.socket.sendall(hello.encode())
            except OSError:
                time.sleep(0.05)

    def send(self, data: bytes) -> None:
        try:
            self.socket.settimeout(5)
            self.socket.sendall(data)
        except OSError:
            self.connect()

    def publish(self, subject: str, value: object, reply: str = "", header: str = "") -> None:
        """Sends a value, which may be lost."""
        top, body = f"NATS/1.0\r\n{header}\r\n".encode(), json.dumps(value).encode()
        self.send(f"HPUB {subject} {reply} {len(top)} {len(top) + len(body)}\r\n".encode() + top + body + b"\r\n")

    def receive(self, deadline: float) -> Message | None:
        """The next message; None at the deadline, or where the connection broke."""
        while True:
            line, is_whole, rest = self.buffer.partition(b"\r\n")
            word, *words = line.decode().split() if is_whole else ["more"]
            if word in ("MSG", "HMSG") and len(rest) >= int(words[-1]) + 2:
                top, end = int(words.pop(-2)) if word == "HMSG" else 0, int(words[-1])  # where the headers end, and where all ends
                self.buffer = rest[end + 2:]
                return words[0], words[2] if len(words) == 4 else "", json.loads(rest[top:end] or b"{}")
            if word in ("MSG", "HMSG", "more"):
                try:
                    self.socket.settimeout(max(deadline - time.monotonic(), 0))
                    data = self.socket.recv(1 << 18)
                except (TimeoutError, BlockingIOError):
                    return None
                except OSError:
                    data = b""
                if not data:
                    return self.connect()
                rest = self.buffer + data
            self.buffer = rest
            if word == "PING":
                self.send(b"PONG\r\n")

    def next(self, seconds: float) -> Message | None:
        return self.waiting.pop(0) if self.waiting else self.receive(time.monotonic() + seconds)

    def request(self, subject: str, value: object, seconds: float, header: str = "") -> dict | None:
        """The answer; {} where nobody is there, None where none comes."""
        self.asked += 1
        reply, deadline = f"{self.inbox}.{self.asked}", time.monotonic() + seconds
        self.publish(subject, value, reply, header)
        while message := self.receive(deadline):
            if message[0] == reply:
                return message[2]
            self.waiting.append(message)
        return None

    def api(self, call: str, value: object, header: str = "") -> dict:
        """What the cluster answers, asked until it can."""
        while True:
            answer = self.request(call, value, 1, header)
            if answer is None:
                self.connect()
            elif answer and answer.get("error", {}).get("code", 0) < 500:
                return answer
            time.sleep(0.02)

    def put(self, stream: str, value: object, last: int) -> int:
        """Appends a value where the last one of the stream has this number (0: where there is none), and gives its number once the
        cluster has it; else Refused. Asked again it is not there twice. (By the last one of a *subject* it would be: of those that are
        on the way at a time this server accepts several.)"""
        while True:
            answer = self.api(stream, value, f"Nats-Expected-Last-Sequence: {last}\r\n")
            if answer.get("error", {}).get("err_code") != WRONG_LAST:
                return answer["seq"]
            number = int(answer["error"]["description"].split()[-1])
            there = self.found(stream, seq=number)[1]
            if there == value:  # an earlier try did it
                return number
            if there is not None:  # else it is not read yet, or is not the last any more
                raise Refused(stream)

    def append(self, stream: str, place: int, value: object) -> None:
        """Puts a value behind so many others of a stream, or finds it there: so each is there once, and in order."""
        try:
            self.put(stream, value, last=place)
        except Refused:
            assert self.wait_for(stream, place + 1) == value, f"{stream} has another value behind {place} others"

    def found(self, stream: str, **words: object) -> tuple[int, object]:
        """The number and the value of a message; 0 and None where it is not there, or not read yet."""
        message = self.api("$JS.API.STREAM.MSG.GET." + stream, words).get("message")
        return (message["seq"], json.loads(base64.b64decode(message["data"]))) if message else (0, None)

    def last(self, stream: str) -> tuple[int, object]:
        return self.found(stream, last_by_subj=stream)

    def wait_for(self, stream: str, number: int) -> object:
        """What is known to be there, but may not be read yet."""
        while (value := self.found(stream, seq=number)[1]) is None:
            time.sleep(0.1)
        return value

    def forget(self, stream: str, number: int) -> None:
        """Gives up what has a lower number."""
        self.api("$JS.API.STREAM.PURGE." + stream, {"seq": number})
