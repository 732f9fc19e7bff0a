"""What tools/serves tries of what a server says on standard error: what was opened, what fails, and each request.

Each case is a function that takes the program, and gives what is wrong, or nothing. No value may stand in any line.
"""

import contextlib
import ctypes
import http.client
import json
import os
import platform
import pty
import re
import select
import shutil
import signal
import socket
import socketserver
import subprocess
import sys
import tempfile
import threading
import time

from connections import Client, Serving, message, raw, traced, want_strace

# What stands in each value, and in no line that a program says.
MARK = "pa55w0rd"
# How many lines are said of one kind of fault in a minute, and in two.
MOST_LINES = 20
JOURNAL_LIMIT = 536_870_912
# From how many entries on an opening says that they are replayed.
MANY = 100_000
WAIT = 20
TOKEN = "1" * 32
REMOVED = "the file was removed while it is open"
# prctl's numbers for a filter of system calls, and the number of getrandom.
PR_SET_SECCOMP, PR_SET_NO_NEW_PRIVS, FILTER, GETRANDOM = 22, 38, 2, 318


def told(server, *parts):
    """The lines of a server with these parts."""
    return [line for line in server.said if all(part in line for part in parts)]


def fault_of_values(server):
    """Whether a value, or more of a credential than its key, stands in what a server said."""
    is_told = any(MARK in line or "AWS4" in line or "aws4" in line for line in server.said)
    return f"a value or a credential stands in what it said: {server.said}" if is_told else None


def value(number=0):
    return json.dumps({"password": f"{MARK}-{number}"})


def created(server, *names):
    """Makes secrets of these names."""
    client = Client(server.port)
    statuses = [client.ask("CreateSecret", Name=name, SecretString=value(), ClientRequestToken=TOKEN) for name in names]
    client.close()
    return statuses


def fault_of_opening(program):
    """Behind the opening it is said what was opened, and how many bytes were cut off."""
    with tempfile.TemporaryDirectory() as folder:
        with Serving(program, "--data", folder) as server:
            created(server, "one", "two", "three")
        journal = os.path.join(folder, "journal-0")
        size = os.path.getsize(journal)
        with open(journal, "ab") as file:
            file.write(b"torn")
        with Serving(program, "--data", folder) as server:
            server.kill()
        cut = f"secretsd: 4 bytes behind the last whole record of journal-0 are cut off, from byte {size} on"
        opened = f", 3 secrets and 3 entries in {size} of {JOURNAL_LIMIT} journal bytes"
        if server.said[0] != cut or not server.said[1].endswith(opened):
            return f"over 4 torn bytes behind 3 entries in {size} bytes it said {server.said}"
    return None


def fault_of_listening(program):
    """With port 0 the line `listening` names the port that the system chose, in the form that others' tools read."""
    front = r"secretsd: listening on 127\.0\.0\.1:([1-9]\d*), data in "
    workers = ", 4 connections, 2 rotation workers"
    with tempfile.TemporaryDirectory() as folder:
        kept = f", 0 secrets and 0 entries in 9 of {JOURNAL_LIMIT} journal bytes"
        for words, back in [([], f"memory{workers}"), (["--data", folder], f"{folder}{workers}{kept}")]:
            with Serving(program, *words) as server:
                found = re.fullmatch(front + re.escape(back), server.said[0])
                client = Client(int(found[1]) if found else server.port)
                is_answered = client.ask() == 200
                client.close()
                if not found or not is_answered:
                    return f"at port 0 it said {server.said}"
    return None


def fault_of_folder_sync(program):
    """A folder is not served that can't be synced itself: the name of a file that was made may be lost there."""
    want_strace()
    with tempfile.TemporaryDirectory() as folder:
        with Serving(program, "--data", folder, before=traced("fsync", "EIO", 1)) as server:
            if server.port is not None:
                return "a folder whose own sync failed was served"
            code = server.end()
    said = [f"secretsd: the folder {folder} can't be opened: Input/output error (os error 5)", "secretsd: status 4"]
    return None if (code, server.said) == (4, said) else f"where a folder's sync failed: {code}, {server.said}"


def fault_of_long_opening(program):
    """Where an opening has many entries, it is said how far it is."""
    with tempfile.TemporaryDirectory() as folder:
        with Serving(program, "--data", folder) as server:
            created(server, "one")
        journal = os.path.join(folder, "journal-0")
        with open(journal, "r+b") as file:
            header, record = file.read(8), file.read()[:-1]
            file.seek(0)
            file.write(header + record * MANY + b"\0")
        # The second entry is not legal behind the first, so the journal is damaged, once it was read.
        with Serving(program, "--data", folder) as server:
            code = server.end()
        read = f"secretsd: journal-0 is read, and its {MANY} entries are replayed now"
        if code != 3 or server.said[0] != read or told(server, "listening"):
            return f"over {MANY} entries it ended with {code} and said {server.said}"
    return None


def removed_alone(folder, create):
    """The journal is removed, and the folder gets the time back that a program can set."""
    time_before = os.stat(folder).st_mtime_ns
    os.unlink(os.path.join(folder, "journal-0"))
    os.utime(folder, ns=(time_before, time_before))


def removed_elsewhere(folder, create):
    """The journal is moved out of the folder, takes a write there, and is removed."""
    elsewhere = f"{folder}-elsewhere"
    os.rename(os.path.join(folder, "journal-0"), elsewhere)
    create()
    os.unlink(elsewhere)


def fault_of_removed_folder(program):
    """A folder that was removed while it is served takes no write any more, nor does one whose journal was."""
    for remove in (lambda folder, create: shutil.rmtree(folder), removed_alone, removed_elsewhere):
        fault = fault_of_removal(program, remove)
        if fault:
            return fault
    return None


def fault_of_removal(program, remove):
    """No write is taken once the journal was removed so, behind some that were, and that is said in a few lines."""
    with tempfile.TemporaryDirectory() as top:
        folder = os.path.join(top, "secrets")
        os.mkdir(folder)
        with Serving(program, "--data", folder) as server:
            statuses = set()
            for name in ("one", "two", "three"):
                statuses.update(created(server, name))
                # The clock of files goes on meanwhile.
                time.sleep(0.05)
            remove(folder, lambda: statuses.update(created(server, "four")))
            client = Client(server.port)
            puts = {client.ask("PutSecretValue", SecretId="one", SecretString=value(n)) for n in range(50)}
            status = client.ask("GetSecretValue", SecretId="one")
            client.close()
            server.kill()
    lines = told(server, REMOVED)
    if (statuses, puts, status) != ({200}, {500}, 200):
        return f"creations were answered {statuses}, puts once the journal was removed {puts}, and a read {status}"
    if not lines or f"of the file journal-0 in {folder} failed" not in lines[0] or len(lines) > MOST_LINES:
        return f"of a journal that was removed it said {server.said}"
    return fault_of_values(server)


class Filter(ctypes.Structure):
    _fields_ = [("code", ctypes.c_ushort), ("yes", ctypes.c_ubyte), ("no", ctypes.c_ubyte), ("k", ctypes.c_uint32)]


class Filters(ctypes.Structure):
    _fields_ = [("count", ctypes.c_ushort), ("first", ctypes.POINTER(Filter))]


def without_random():
    """Lets the random source of the system fail from now on: getrandom gives EIO, and all else is as it was."""
    rows = [(0x20, 0, 0, 0), (0x15, 0, 1, GETRANDOM), (0x06, 0, 0, 0x00050005), (0x06, 0, 0, 0x7FFF0000)]
    filters = (Filter * len(rows))(*(Filter(*row) for row in rows))
    libc = ctypes.CDLL(None, use_errno=True)
    libc.prctl(PR_SET_NO_NEW_PRIVS, 1, 0, 0, 0)
    if libc.prctl(PR_SET_SECCOMP, FILTER, ctypes.byref(Filters(len(rows), filters)), 0, 0):
        os._exit(99)


def fault_of_random(program):
    """Where the random source fails, the request is refused and the error is said."""
    if platform.machine() != "x86_64":
        print("serves: a random source that fails was not tried: it is known of x86_64 alone")
        return None
    words = [program, "--mode", "exec", "--log"]
    asked = message("CreateSecret", Name="one", SecretString=value()) * 30
    ended = subprocess.run(words, input=asked, capture_output=True, preexec_fn=without_random, timeout=60)
    if ended.returncode == 99:
        print("serves: a random source that fails was not tried: system calls can't be filtered here")
        return None
    said, replies = ended.stderr.decode().splitlines(), ended.stdout.count(b"random source fault")
    line = "secretsd: the system's random source failed: Input/output error (os error 5)"
    if ended.returncode != 0 or replies != 30 or said[:1] != [line] or len(said) > MOST_LINES:
        return f"without a random source {replies} of 30 messages were answered so, and it said {said}"
    return None


# What each of these messages has behind its first line, and a value that looks like a member and a reply.
CREDENTIAL = b"\r\nAuthorization: AWS4-HMAC-SHA256 Credential=ADA/20260101/us-east-1/secretsmanager/aws4_request\r\n"
FORGED = '"SecretId":"x"HTTP/1.1 900 ' * 2000
LINE = re.compile(r"secretsd: (\d{4}-\d\d-\d\dT\d\d:\d\d:\d\dZ) (\S+) (\S+) (\S+) (\d{3}) (\d+)")


def fault_of_log(program):
    """With --log each request has a line, in order, whatever was asked; and without it none."""
    asked = [
        ("CreateSecret", {"Name": "db/one", "SecretString": value()}, "CreateSecret db/one 200"),
        ("GetSecretValue", {"SecretId": "db/one"}, "GetSecretValue db/one 200"),
        ("GetSecretValue", {"SecretId": "none"}, "GetSecretValue none 400"),
        ("PutSecretValue", {"SecretString": value(), "SecretId": f"{MARK} \n"}, "PutSecretValue - 400"),
        ("PutSecretValue", {"SecretId": "db/one", "SecretString": FORGED}, "PutSecretValue db/one 200"),
        ("GetSecretValue", {"SecretId": "db/one"}, "GetSecretValue db/one 200"),
        ("ListSecrets", {}, "ListSecrets - 200"),
        ("Nonsense", {"SecretId": "db/one"}, "- - 400"),
    ]
    wanted = [f"ADA {line}" for _, _, line in asked] + ["- - - 400"]
    text = b"".join(message(name, **members).replace(b"\r\n", CREDENTIAL, 1) for name, members, _ in asked)
    for words in (["--log"], []):
        with Serving(program, *words) as server:
            before = time.time()
            connection = raw(server.port, text + b"no message\r\n\r\n")
            while connection.recv(65_536):
                pass
            connection.close()
            server.kill()
        found = [LINE.fullmatch(line) for line in server.said if " ADA " in line or " - - - " in line]
        if not words and found:
            return f"without --log it said {server.said}"
        if words and [match and " ".join(match.groups()[1:5]) for match in found] != wanted:
            return f"with --log it said {server.said}"
        now = time.strftime("%Y-%m-%dT%H:%M", time.gmtime(before))
        later = time.strftime("%Y-%m-%dT%H:%M", time.gmtime())
        if words and not all(now <= match[1][:16] <= later and int(match[6]) < 10_000_000 for match in found):
            return f"with --log it said {server.said}"
        if fault := fault_of_values(server):
            return fault
    return None


class Rotator(socketserver.ThreadingTCPServer):
    """A rotator behind an address. It answers each step that goes on, once it is free."""

    daemon_threads = True
    allow_reuse_address = True

    def __init__(self, address=("127.0.0.1", 0)):
        super().__init__(address, Step)
        self.free, self.asked = threading.Event(), []
        threading.Thread(target=self.serve_forever, args=(0.05,), daemon=True).start()

    def __exit__(self, *_):
        self.free.set()
        self.shutdown()
        self.server_close()


class Step(socketserver.StreamRequestHandler):
    def handle(self):
        step = json.loads(self.rfile.readline())["Step"]
        self.server.asked.append(step)
        self.server.free.wait(WAIT)
        answer = {"Answer": "Value", "SecretString": value(1)} if step == "createSecret" else {"Answer": "Yes"}
        self.wfile.write(json.dumps(answer).encode() + b"\n")


def wait_until(is_so, seconds=WAIT):
    last = time.monotonic() + seconds
    while not is_so() and time.monotonic() < last:
        time.sleep(0.01)
    return is_so()


def is_rotated(port):
    """Whether the secret's new value is current."""
    connection = http.client.HTTPConnection("127.0.0.1", port, timeout=60)
    with contextlib.closing(connection):
        head = {"X-Amz-Target": "secretsmanager.GetSecretValue"}
        connection.request("POST", "/", json.dumps({"SecretId": "one"}), head)
        return json.loads(connection.getresponse().read()).get("SecretString") == value(1)


def fault_of_interrupted(program):
    """A program that is stopped while it waits for a rotator, and goes on later, takes its answer."""
    with Rotator() as rotator:
        address = "%s:%d" % rotator.server_address
        with Serving(program, "--rotator", address) as server:
            created(server, "one")
            Client(server.port).ask("RotateSecret", SecretId="one", ClientRequestToken="2" * 32)
            asked = wait_until(lambda: rotator.asked)
            for number in (signal.SIGSTOP, signal.SIGCONT):
                time.sleep(0.2)
                server.process.send_signal(number)
            time.sleep(0.2)
            rotator.free.set()
            ended = asked and wait_until(lambda: is_rotated(server.port))
            server.kill()
    if not ended or told(server, "rotation of"):
        return f"a program that was stopped within a step was asked {rotator.asked} and said {server.said}"
    return fault_of_values(server)


def deaf(address):
    """Sockets by which nobody is answered who connects to the address, and who has no answer at the address yet."""
    listener = socket.socket()
    listener.setsockopt(socket.SOL_SOCKET, socket.SO_REUSEADDR, 1)
    listener.bind(address)
    listener.listen(0)
    waiting = [socket.socket() for _ in range(4)]
    for one in waiting:
        one.setblocking(False)
        one.connect_ex(address)
    return [listener, *waiting]


# Prints the addresses of a name in the order in which they are tried.
LOOK = "import socket; print(*(it[4][0] for it in socket.getaddrinfo('rotator.test', 1, type=socket.SOCK_STREAM)))"


def fault_of_addresses(program):
    """Of two addresses of a rotator's name the first doesn't answer: it leaves the second half of a step's time."""
    with tempfile.TemporaryDirectory() as top:
        hosts = os.path.join(top, "hosts")
        with open(hosts, "w", encoding="ascii") as file:
            file.write("127.0.0.1 rotator.test\n127.0.0.2 rotator.test\n")
        inside = ["unshare", "--mount", "sh", "-c", 'mount --bind "$0" /etc/hosts && exec "$@"', hosts]
        looked = subprocess.run([*inside, sys.executable, "-c", LOOK], capture_output=True, text=True)
        if looked.returncode:
            print("serves: two addresses of a rotator were not tried: no file can be mounted here")
            return None
        first, second = looked.stdout.split()
        with Rotator((second, 0)) as rotator, contextlib.ExitStack() as stack:
            for one in deaf((first, rotator.server_address[1])):
                stack.enter_context(one)
            return fault_of_second_address(program, rotator, inside)


def fault_of_second_address(program, rotator, inside):
    """Where a rotator stands at the second address of its name, it is asked after half of a step's time."""
    rotator.free.set()
    with Serving(program, "--rotator", f"rotator.test:{rotator.server_address[1]}", before=inside) as server:
        created(server, "one")
        start = time.monotonic()
        Client(server.port).ask("RotateSecret", SecretId="one", ClientRequestToken="2" * 32)
        asked = wait_until(lambda: rotator.asked)
        seconds = time.monotonic() - start
        server.kill()
    if not asked or not 9 < seconds < 15 or told(server, "failed at"):
        return f"by its second address a rotator was asked {rotator.asked} after {seconds:.1f} s; it said {server.said}"
    return None


def fault_of_failed_steps(program):
    """A step that failed is said, with the secret, the step, the attempt and what was answered."""
    with Serving(program) as server:
        client = Client(server.port)
        client.ask("CreateSecret", Name="one", SecretString=MARK)
        client.ask("RotateSecret", SecretId="one", ClientRequestToken="2" * 32)
        time.sleep(1)
        client.close()
        server.kill()
    lines = told(server, "secretsd: the rotation of arn:aws:secretsmanager:", ":secret:one-")
    if len(lines) != 1 or not lines[0].endswith(" failed at createSecret, attempt 1 of 5: it answered No"):
        return f"of a step that failed it said {server.said}"
    return fault_of_values(server)


def fault_of_rotator_words(program):
    """A rotator that can't be asked is said before it is listened."""
    cases = {
        "nowhere": "is neither local nor a host, a colon and a port",
        "nowhere:http": "is neither local nor a host, a colon and a port",
        "no-such-host.invalid:1": "is not found now: ",
    }
    for rotator, what in cases.items():
        with Serving(program, "--rotator", rotator) as server:
            server.kill()
        if not server.said[0].startswith(f"secretsd: the rotator {rotator} {what}") or len(server.said) != 2:
            return f"with the rotator {rotator} it said {server.said}"
    with Serving(program, "--rotator", "127.0.0.1:1") as server:
        server.kill()
    return f"with a rotator that has an address it said {server.said}" if len(server.said) != 1 else None


def fault_of_terminal(program):
    """Alone on a terminal the program says that it waits, and with a file it does not."""
    ours, theirs = pty.openpty()
    process = subprocess.Popen([program], stdin=theirs, stdout=subprocess.DEVNULL, stderr=subprocess.PIPE, text=True)
    ready = select.select([process.stderr], [], [], WAIT)[0]
    said = process.stderr.readline() if ready else ""
    process.kill()
    process.wait()
    process.stderr.close()
    os.close(ours)
    os.close(theirs)
    with_file = subprocess.run([program], stdin=subprocess.DEVNULL, capture_output=True, text=True, timeout=60)
    if not said.startswith("secretsd: waits for HTTP messages on standard input") or with_file.stderr:
        return f"on a terminal it said {said!r}, and over a file {with_file.stderr!r}"
    return None


# Those of a row are tried side by side.
CASES = [
    {
        "listening": fault_of_listening,
        "opening": fault_of_opening,
        "long opening": fault_of_long_opening,
        "removed folder": fault_of_removed_folder,
        "random source": fault_of_random,
        "folder's sync": fault_of_folder_sync,
    },
    {
        "log": fault_of_log,
        "interrupted step": fault_of_interrupted,
        "two addresses": fault_of_addresses,
        "failed step": fault_of_failed_steps,
        "words of a rotator": fault_of_rotator_words,
        "terminal": fault_of_terminal,
    },
]
