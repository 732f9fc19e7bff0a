"""A server behind an address that answers a program in mode agent as tables have it, and keeps what it was asked: which
question each path puts to it, what the program makes of each of its answers, how streams of requests go, and which of
more than a thousand answers are kept."""

import itertools
import json
import socket
import socketserver
import threading
import time

AGENT = ("127.0.0.1", 2773)
PATH = "/secretsmanager/get"
WAIT = 30
KEPT = 1000
BODY_LIMIT = 524_288
ARN = "arn:aws:secretsmanager:us-east-1:000000000000:secret:a-AbCdEf"
VERSION = "EXAMPLE1-90ab-cdef-fedc-ba987SECRET1"
TOKEN = "12345678901234567890123456789012"
FAULT = (500, '{"Message":"upstream fault","__type":"InternalServiceError"}')
REASONS = {200: "OK", 400: "Bad Request", 413: "Content Too Large", 500: "Internal Server Error",
           503: "Service Unavailable"}

# A query, the members of the question that it puts, and how often that is asked where the query comes twice.
QUESTIONS = [
    ("secretId=db%2Fapp", {"SecretId": "db/app"}, 1),
    ("secretId=db%2fapp&refreshNow=true", {"SecretId": "db/app"}, 2),
    ("secretId=db/app&refreshNow=false", {"SecretId": "db/app"}, 0),
    ("refreshNow=%74rue&secretId=a+b", {"SecretId": "a+b"}, 2),
    ("secretId=a&refreshNow=false", {"SecretId": "a"}, 1),
    ("secretId=%61", {"SecretId": "a"}, 0),
    ("secretId=a=b", {"SecretId": "a=b"}, 1),
    ("secretId=a&versionStage=AWSPREVIOUS", {"SecretId": "a", "VersionStage": "AWSPREVIOUS"}, 1),
    ("versionStage=%C3%A4%20?&secretId=a", {"SecretId": "a", "VersionStage": "\u00e4 ?"}, 1),
    ("versionStage=%25&secretId=a", {"SecretId": "a", "VersionStage": "%"}, 1),
    (f"versionId={VERSION}&secretId=a", {"SecretId": "a", "VersionId": VERSION}, 1),
    (f"secretId={ARN}", {"SecretId": ARN}, 1),
    (f"versionStage=x&refreshNow=true&versionId={TOKEN}&secretId=a",
     {"SecretId": "a", "VersionId": TOKEN, "VersionStage": "x"}, 2),
]

# A query, and the key that it is refused for, which is the first bad one.
REFUSED = [
    ("secretId=a&secretId=b", "secretId"), ("versionId=x", "versionId"), ("versionStage=x", "secretId"),
    ("refreshNow=true", "secretId"), ("secretId", "secretId"), ("secretId=", "secretId"), ("secretId=%", "secretId"),
    ("secretId=a%2", "secretId"), ("secretId=a%2g", "secretId"), ("secretId=%FF", "secretId"),
    ("secretId=%C3", "secretId"), ("secretId=a%20b", "secretId"), ("secretId=arn:x", "secretId"), ("secretId=a&", ""),
    ("&secretId=a", ""), ("=a&secretId=a", ""), ("secretId=a&refreshNow=yes", "refreshNow"),
    ("secretId=a&refreshNow=True", "refreshNow"), ("secretId=a&refreshNow", "refreshNow"),
    ("secretId=a&versionStage=", "versionStage"), ("secretid=a", "secretid"), ("secret%49d=a&secretId=a", "secret%49d"),
    ("a%zz=1&secretId=%&versionId=", "a%zz"), ("", "secretId"),
]

# A method and a path, where not both are those that are answered.
NO_PATHS = [
    ("GET", f"{PATH}/?secretId=a"), ("GET", "/secretsmanager/Get?secretId=a"), ("GET", "/secretsmanager%2Fget?secretId=a"),
    ("GET", "/x"), ("POST", f"{PATH}?secretId=a"), ("get", f"{PATH}?secretId=a"),
]


def head(line, *fields):
    return "\r\n".join([f"HTTP/1.1 {line}", *fields, "", ""]).encode()


# What the server sends, in pieces, before it ends the connection, and what is made of it.
ANSWERS = {
    "a reply": ([head("200 OK", "Content-Type: application/x-amz-json-1.1", "Content-Length: 2") + b"{}"], (200, "{}")),
    "an empty body, and a field in small letters": ([head("413 Content Too Large", "content-length: 0")], (413, "")),
    "bytes behind the body": ([head("503 Service Unavailable", "Content-Length: 1") + b"abc"], (503, "a")),
    "a reply in two pieces": ([head("200 OK", "Content-Length: 2"), b"{}"], (200, "{}")),
    "a head in two pieces": ([b"HTTP/1.1 200 OK\r\nContent-Le", b"ngth: 2\r\n\r\n{}"], (200, "{}")),
    "the longest body": ([head("200 OK", f"Content-Length: {BODY_LIMIT}") + b"x" * BODY_LIMIT], (200, "x" * BODY_LIMIT)),
    "a body that is cut": ([head("200 OK", "Content-Length: 3") + b"ab"], FAULT),
    "a head that is cut": ([b"HTTP/1.1 200 OK\r\nContent-Length: 3\r\n"], FAULT),
    "nothing": ([], FAULT),
    "another place": ([head("301 Moved", "Content-Length: 0")], FAULT),
    "another status": ([head("404 Not Found", "Content-Length: 0")], FAULT),
    "no length": ([head("200 OK") + b"{}"], FAULT),
    "a length that is none": ([head("200 OK", "Content-Length: x") + b"{}"], FAULT),
    "two lengths": ([head("200 OK", "Content-Length: 2", "content-length: 2") + b"{}"], FAULT),
    "a length with a sign": ([head("200 OK", "Content-Length: +2") + b"{}"], FAULT),
    "a length of ten digits": ([head("200 OK", "Content-Length: 0000000002") + b"{}"], (200, "{}")),
    "a length of eleven digits": ([head("200 OK", "Content-Length: 00000000002") + b"{}"], FAULT),
    "a body in chunks": (
        [head("200 OK", "Transfer-Encoding: chunked", "Content-Length: 12") + b"2\r\n{}\r\n0\r\n\r\n"], FAULT),
    "a body that is announced too long": ([head("200 OK", f"Content-Length: {BODY_LIMIT + 1}") + b"x"], FAULT),
    "no reply": ([b"220 ready\r\n"], FAULT),
    "a head that is too long": ([head("200 OK", "A: " + "a" * 16_384, "Content-Length: 0")], FAULT),
}


def reply(status, body):
    data = body.encode()
    return head(f"{status} {REASONS[status]}", "Content-Type: application/x-amz-json-1.1", f"Content-Length: {len(data)}") + data


def refusal(message, error="InvalidParameterException"):
    return 400, json.dumps({"Message": message, "__type": error}, separators=(",", ":"))


def asks(query, *fields, method="GET", path=PATH):
    return "\r\n".join([f"{method} {path}?{query} HTTP/1.1", *fields, "", ""]).encode()


# What is sent to the agent, and all that it writes before the connection ends.
NOTHING = b"GET /x HTTP/1.1\r\n\r\n"
STREAMS = {
    "requests one behind the other": (
        asks("secretId=one") * 2 + NOTHING + asks("secretId=cut-body", "Connection: close"),
        reply(200, '{"asked":"one"}') * 2 + reply(*refusal("agent: path")) + reply(*FAULT)),
    "nothing is read behind a request that closes": (
        NOTHING.replace(b"\r\n", b"\r\nConnection: close\r\n", 1) + b"more", reply(*refusal("agent: path"))),
    "bytes that are no request": (
        NOTHING + b"nonsense\r\n\r\n", reply(*refusal("agent: path")) + reply(*refusal("http: head", "SerializationException"))),
    "a body in chunks": (
        NOTHING.replace(b"\r\n", b"\r\nTransfer-Encoding: chunked\r\n", 1),
        reply(*refusal("http: chunked", "SerializationException"))),
    "an end within a request": (NOTHING[:6], b""),
    "nothing": (b"", b""),
}


class Upstream(socketserver.ThreadingTCPServer):
    """A server that answers by the name of the secret: as the table has it, or with the name."""

    daemon_threads = True
    request_queue_size = 64

    def __init__(self):
        super().__init__(("127.0.0.1", 0), Question)
        self.asked = []
        self.answers = {f"answer-{number}": pieces for number, (pieces, _) in enumerate(ANSWERS.values())}
        self.answers["cut-body"] = ANSWERS["a body that is cut"][0]
        threading.Thread(target=self.serve_forever, args=(0.05,), daemon=True).start()

    def __exit__(self, *_):
        self.shutdown()
        self.server_close()

    @property
    def address(self):
        return "%s:%d" % self.server_address

    def head_of(self, body):
        """The head of the message that asks a question."""
        return "\r\n".join(["POST / HTTP/1.1", f"Host: {self.address}", "X-Amz-Target: secretsmanager.GetSecretValue",
                            "Content-Type: application/x-amz-json-1.1", "Connection: close", f"Content-Length: {len(body)}", "", ""])

    def handle_error(self, request, client_address):
        """A program that went away is no fault here: it is told by what it made of the answer."""


class Question(socketserver.StreamRequestHandler):
    def handle(self):
        lines = list(itertools.takewhile(lambda line: line != b"\r\n", self.rfile))
        size = int(next(line for line in lines if line.startswith(b"Content-Length: "))[16:])
        body = self.rfile.read(size)
        self.server.asked.append(b"".join(lines) + b"\r\n" + body)
        name = json.loads(body)["SecretId"]
        usual = reply(200, json.dumps({"asked": name}, separators=(",", ":")))
        for piece in self.server.answers.get(name, [usual]):
            self.wfile.write(piece)
            time.sleep(0.02 if name in self.server.answers else 0)


def written(sent):
    """All that the agent writes to these bytes, behind which no more come."""
    with socket.create_connection(AGENT, timeout=WAIT) as connection:
        connection.sendall(sent)
        connection.shutdown(socket.SHUT_WR)
        return b"".join(iter(lambda: connection.recv(65_536), b""))


def wrong_questions(upstream):
    for query, members, count in QUESTIONS:
        before = len(upstream.asked)
        found = written(asks(query) * 2)
        body = json.dumps(members, separators=(",", ":"), ensure_ascii=False).encode()
        wanted = [upstream.head_of(body).encode() + body] * count
        shown = reply(200, json.dumps({"asked": members["SecretId"]}, separators=(",", ":"))) * 2
        if upstream.asked[before:] != wanted or found != shown:
            yield f"{query} put {upstream.asked[before:]} and was answered {found!r}"


def wrong_refusals(upstream):
    before = len(upstream.asked)
    for query, key in REFUSED:
        if written(asks(query)) != reply(*refusal(f"agent: {key}")):
            yield query
    for method, path in NO_PATHS:
        if written(f"{method} {path} HTTP/1.1\r\n\r\n".encode()) != reply(*refusal("agent: path")):
            yield f"{method} {path}"
    if len(upstream.asked) > before:
        yield f"{len(upstream.asked) - before} questions behind refusals"


def wrong_answers():
    """No answer is kept but those of 200, which are asked afresh."""
    for number, (name, (_, wanted)) in enumerate(ANSWERS.items()):
        found = written(asks(f"secretId=answer-{number}&refreshNow=true"))
        if found != reply(*wanted):
            yield f"{name}: {found[:300]!r}"


def wrong_streams():
    for name, (sent, wanted) in STREAMS.items():
        found = written(sent)
        if found != wanted:
            yield f"{name}: {found!r}"


def asked_of(upstream, names):
    """How many questions these names put."""
    before = len(upstream.asked)
    for begin in range(0, len(names), 500):
        found = written(b"".join(asks(f"secretId={name}") for name in names[begin : begin + 500]))
        if found.count(b"HTTP/1.1 200 OK") != len(names[begin : begin + 500]):
            return f"no answers, but {found[:300]!r}"
    return len(upstream.asked) - before


def wrong_keeping(upstream):
    """Of a thousand and one answers the one goes that was used longest ago."""
    names = [f"k{number}" for number in range(KEPT)]
    rounds = [(names, KEPT), (names, 0), (["more"], 1), (names[1:] + ["more"], 0), (names[:1], 1), (names[2:] + ["more"], 0),
              (names[1:2], 1)]
    for number, (asked, wanted) in enumerate(rounds):
        found = asked_of(upstream, asked)
        if found != wanted:
            yield f"round {number}: {found} questions, {wanted} are wanted"


def rows_run(upstream):
    """Each table's name, and whether all of it goes as wanted."""
    tables = [
        (f"{len(QUESTIONS)} questions", wrong_questions(upstream)),
        (f"{len(REFUSED) + len(NO_PATHS)} requests that are refused", wrong_refusals(upstream)),
        (f"{len(ANSWERS)} answers of a server", wrong_answers()),
        (f"{len(STREAMS)} streams", wrong_streams()),
        (f"{KEPT} answers that are kept", wrong_keeping(upstream)),
    ]
    for name, wrong in tables:
        found = list(wrong)
        yield ("; ".join([name, *found[:3]]), not found)
