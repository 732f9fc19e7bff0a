"""What tools/serves tries of connections: clients that are slow, that are idle, and a system that lacks something.

Each case is a function that takes the program, and gives what is wrong, or nothing. Those of many connections at once
are in crowds.py.
"""

import contextlib
import ctypes
import http.client
import importlib.util
import json
import multiprocessing
import os
import resource
import select
import shutil
import signal
import socket
import subprocess
import tempfile
import threading
import time

# A body is refused that is longer than 524,288 bytes, and read to its end if it has 16 MiB at most.
LONG_BODY = 600_000
CALLS = 2_010
# After so many replies the server ends a connection.
MESSAGES = 1_000
SLOW_CLIENTS = 10
BUSY_CLIENTS = 10
BUSY_CALLS = 500
# How many seconds a client may send nothing between two messages, may take to send one, and to take a reply.
IDLE, MESSAGE, REPLY = 75, 30, 30
# Of what the client takes itself, on a machine with other work.
ALLOWANCE = 5
PIDFD_GETFD = 438
WORKERS = 3
# Of so many open files the half is left to other things, and each of the connection workers has four connections.
FEW_FILES, FEW_FILES_WORKERS, FEW_FILES_MOST = 32, 4, 16
CALLERS = 40
# In bytes.
CHECKED_TABLE = 1 << 40
REFUSED = "secretsd: a connection can't be accepted: "
ACCEPTS = "accept,accept4"
# What an accept is told of a peer or a network (accept(2)), and what the system may lack.
OF_PEERS = ["ECONNABORTED", "ENETDOWN", "EPROTO", "ENOPROTOOPT", "EHOSTDOWN", "ENONET", "EHOSTUNREACH", "EOPNOTSUPP"]
OF_PEERS += ["ENETUNREACH", "EPERM", "ECONNRESET", "ETIMEDOUT"]
OF_WANT = ["EMFILE", "ENFILE", "ENOBUFS", "ENOMEM"]
# The error, how many accepts in a row fail by it, and the seconds that this takes: 100 milliseconds each where the
# system lacks something, and behind the 1,000th else.
FAILED_ACCEPTS = [(error, 5, 0) for error in OF_PEERS] + [(error, 20, 2) for error in OF_WANT]
FAILED_ACCEPTS.append(("ECONNABORTED", 1_020, 2))


class NotTried(Exception):
    """What a case wants, and is not there."""


class Serving:
    """The program in mode serve, at a port that the system chooses. A command that is given first starts it."""

    def __init__(self, program, *words, limit="", before=()):
        command = [*before, program, "--mode", "serve", "--listen", "127.0.0.1:0", *words]
        if limit:
            command = ["sh", "-c", f'ulimit {limit} && exec "$@"', "sh", *command]
        self.process = subprocess.Popen(command, stderr=subprocess.PIPE, text=True)
        self.said, self.port = [], None
        for line in self.process.stderr:
            self.said.append(line.rstrip())
            if ": listening on " in line:
                self.port = int(line.split(",")[0].rpartition(":")[2])
                break

    def __enter__(self):
        return self

    def __exit__(self, *_):
        self.kill()
        self.process.stderr.close()

    def kill(self):
        self.process.kill()
        self.end()

    def end(self):
        """Waits for the program's end, and reads what it said until then."""
        code = self.process.wait(timeout=60)
        self.said += self.process.stderr.read().splitlines()
        return code


class Client:
    """A client that keeps its connection, and opens another where that was closed, as those of the SDKs do."""

    def __init__(self, port):
        self.port, self.connections, self.connection, self.replies = port, 0, None, 0

    def ask(self, operation="ListSecrets", **members):
        """The status of a reply. It is asked once: where the connection ends before the reply, that is a fault."""
        # The last reply of a connection and its end are two: on a busy machine the end comes a moment later.
        patience = 1 if self.replies == MESSAGES else 0
        if self.connection is None or is_dropped(self.connection, patience):
            self.close()
            self.connection = http.client.HTTPConnection("127.0.0.1", self.port, timeout=60)
            self.connections += 1
            self.replies = 0
        self.connection.request("POST", "/", json.dumps(members), {"X-Amz-Target": f"secretsmanager.{operation}"})
        reply = self.connection.getresponse()
        reply.read()
        self.replies += 1
        return reply.status

    def close(self):
        if self.connection is not None:
            self.connection.close()
            self.connection = None


def is_dropped(connection, patience):
    """Whether the other side closes a connection on which nothing is awaited, within so many seconds."""
    return connection.sock is None or is_heard(connection.sock, patience)


def is_heard(connection, patience=0):
    """Whether something comes on a connection, or its end, within so many seconds."""
    return bool(select.select([connection], [], [], patience)[0])


class Others:
    """Two clients that ask again and again: one on a connection that it keeps, and one on a new one each time."""

    def __init__(self, server):
        self.slowest, self.calls, self.faults, self.is_over = 0, 0, [], threading.Event()
        # A call may take so many seconds.
        self.most = 10 if is_checked(server.process.pid) else 1
        self.threads = [threading.Thread(target=self.ask, args=(Client(server.port), kept)) for kept in (True, False)]

    def __enter__(self):
        for thread in self.threads:
            thread.start()
        return self

    def __exit__(self, *_):
        self.is_over.set()
        for thread in self.threads:
            thread.join()

    def ask(self, client, is_kept):
        is_asking = True
        while is_asking:
            start = time.monotonic()
            try:
                if (status := client.ask()) != 200:
                    self.faults.append(f"it got {status}")
            except (OSError, http.client.HTTPException) as error:
                self.faults.append(repr(error))
                client.close()
            self.slowest = max(self.slowest, time.monotonic() - start)
            self.calls += 1
            if not is_kept:
                client.close()
            is_asking = not self.is_over.wait(0.02)
        client.close()

    def fault(self, what, seconds=None):
        """What is wrong with how they were answered, beside what else was done. They have ended by then."""
        if self.faults:
            return f"beside {what} {len(self.faults)} of {self.calls} calls of others failed: {self.faults[0]}"
        if self.slowest > (seconds or self.most):
            return f"beside {what} a call of another client took {self.slowest:.1f} seconds"
        return None if self.calls else f"beside {what} no other client asked"


def memory_of(process, name):
    """The resident memory of a process, VmRSS, or the size of its table of memory, VmSize, in bytes."""
    with open(f"/proc/{process}/status", encoding="ascii") as file:
        return next(int(line.split()[1]) << 10 for line in file if line.startswith(f"{name}:"))


def is_checked(process):
    """Whether a process checks its own memory: it is slow, and its table is longer than any other one's."""
    return memory_of(process, "VmSize") > CHECKED_TABLE


def raw(port, sent=b"", buffer=None):
    """A connection on which this was sent. It has room for so many bytes of replies, where that is given."""
    connection = socket.socket()
    connection.settimeout(60)
    if buffer:
        connection.setsockopt(socket.SOL_SOCKET, socket.SO_RCVBUF, buffer)
    connection.connect(("127.0.0.1", port))
    connection.sendall(sent)
    return connection


def file_of(connection):
    """The name of the program's side of a connection as an open file, from its accept on until it closes it."""
    try:
        theirs, ours = ("0100007F:%04X" % port for _, port in (connection.getpeername(), connection.getsockname()))
    except OSError:
        return None
    with open("/proc/net/tcp", encoding="ascii") as table:
        rows = [row.split() for row in table]
    found = [row[9] for row in rows[1:] if row[1] == theirs and row[2] == ours and row[9] != "0"]
    return f"socket:[{found[0]}]" if found else None


def is_held(connection):
    """Whether the program has its side of a connection."""
    return file_of(connection) is not None


def files_of_polls(process):
    """The names of the files that each poll of a process looks after: each connection worker has one."""
    names, polls = {}, {}
    for file in os.listdir(f"/proc/{process}/fd"):
        with contextlib.suppress(FileNotFoundError):
            names[file] = os.readlink(f"/proc/{process}/fd/{file}")
            if names[file] == "anon_inode:[eventpoll]":
                with open(f"/proc/{process}/fdinfo/{file}", encoding="ascii") as text:
                    polls[file] = [line.split()[1] for line in text if line.startswith("tfd:")]
    return {poll: [names.get(file) for file in files] for poll, files in polls.items()}


def connections_of_workers(process):
    """How many connections each connection worker of a process polls. Each polls the listener as well."""
    return [len(names) - 1 for names in files_of_polls(process).values()]


def worker_of(process, connection):
    """What tells the connection worker that has a connection from the others."""
    end = time.monotonic() + 60
    while time.monotonic() < end:
        name = file_of(connection)
        for poll, names in files_of_polls(process).items():
            if name and name in names:
                return poll
    raise OSError("no connection worker has a connection")


def message(operation, **members):
    body = json.dumps(members).encode()
    head = f"POST / HTTP/1.1\r\nX-Amz-Target: secretsmanager.{operation}\r\nContent-Length: {len(body)}\r\n\r\n"
    return head.encode() + body


def seconds_until_closed(connection):
    """How long it takes until the other side closes a connection, and what it says before."""
    start, text = time.monotonic(), b""
    try:
        while piece := connection.recv(65_536):
            text += piece
    except (ConnectionResetError, TimeoutError) as error:
        text += f"({error})".encode()
    connection.close()
    return time.monotonic() - start, text


def fault_of_long_bodies(program):
    """Each client reads that its body is too long, also where it has sent it whole by then."""
    with Serving(program) as server:
        for turn in range(6):
            size = LONG_BODY << turn % 5
            connection = http.client.HTTPConnection("127.0.0.1", server.port, timeout=60)
            try:
                connection.request("POST", "/", b"x" * size, {"X-Amz-Target": "secretsmanager.PutSecretValue"})
                reply = connection.getresponse()
                said = reply.status, json.loads(reply.read())["__type"]
            except OSError as error:
                return f"a body of {size} bytes is not answered: {error!r}"
            connection.close()
            if said != (413, "SerializationException"):
                return f"a body of {size} bytes is answered by {said}"
    return None


def fault_of_many_calls(program):
    """A client with one connection at a time calls more often than a connection has messages."""
    with Serving(program) as server:
        client = Client(server.port)
        try:
            for call in range(1, CALLS + 1):
                if client.ask("GetRandomPassword") != 200:
                    return f"call {call} was not answered"
        except OSError as error:
            return f"call {call} was not answered: {error!r}"
        finally:
            client.close()
        if client.connections != -(-CALLS // MESSAGES):
            return f"{CALLS} calls came over {client.connections} connections"
    return None


def fault_of_boto3(program):
    """boto3 over one connection at a time is answered each call, of which it sends none again here."""
    if importlib.util.find_spec("boto3") is None:
        raise NotTried("boto3")
    import boto3
    from botocore.config import Config

    session = boto3.Session(aws_access_key_id="any", aws_secret_access_key="any", region_name="us-east-1")
    once = Config(retries={"max_attempts": 0}, max_pool_connections=1)
    with Serving(program) as server:
        client = session.client("secretsmanager", endpoint_url=f"http://127.0.0.1:{server.port}", config=once)
        for call in range(1, CALLS + 1):
            try:
                client.get_random_password()
            except Exception as refused:
                return f"call {call} of boto3 was not answered: {refused}"
        client.close()
    return None


def fault_of_silence(program):
    """A connection on which nothing came for eight seconds is answered still, also one that was never asked on."""
    with Serving(program) as server:
        connections = [raw(server.port), raw(server.port, message("ListSecrets"))]
        answered = connections[1].recv(65_536).startswith(b"HTTP/1.1 200 ")
        time.sleep(8)
        for connection in connections:
            connection.sendall(message("ListSecrets"))
            answered = answered and connection.recv(65_536).startswith(b"HTTP/1.1 200 ")
            connection.close()
    return None if answered else "after eight seconds without a message a client is not answered"


def fault_of_idle(program):
    """A connection on which nothing comes is closed after 75 seconds, and not before."""
    with Serving(program) as server:
        connections, start, times = [raw(server.port), raw(server.port, message("ListSecrets"))], time.monotonic(), []
        for connection in connections:
            connection.settimeout(IDLE + 2 * ALLOWANCE)
            seconds_until_closed(connection)
            times.append(time.monotonic() - start)
    if not all(IDLE - 1 < seconds < IDLE + ALLOWANCE for seconds in times):
        return f"idle connections were closed after {times[0]:.1f} and {times[1]:.1f} seconds"
    return None


def fault_of_stopped_idle(program):
    """Requests that came while the program was stopped are answered, though their connections' time is over by then."""
    asked = message("ListSecrets")
    with Serving(program, "--connections", "1") as server:
        connections = [raw(server.port, asked) for _ in range(CALLERS)]
        answered = [connection.recv(65_536).startswith(b"HTTP/1.1 200 ") for connection in connections]
        time.sleep(IDLE - 2)
        os.kill(server.process.pid, signal.SIGSTOP)
        for connection in connections:
            connection.sendall(asked)
        time.sleep(4)
        os.kill(server.process.pid, signal.SIGCONT)
        for connection in connections:
            with contextlib.suppress(ConnectionResetError):
                answered.append(connection.recv(65_536).startswith(b"HTTP/1.1 200 "))
            connection.close()
    if answered.count(True) != 2 * CALLERS:
        return f"{answered.count(True)} of {2 * CALLERS} requests were answered, half of them sent to a stopped program"
    return None


def fault_of_drip(program):
    """A message that comes by a byte each two seconds is given up after thirty seconds, and nobody waits for it."""
    with Serving(program, "--connections", "1") as server, Others(server) as others:
        start, connection = time.monotonic(), raw(server.port)
        for byte in message("ListSecrets"):
            try:
                connection.sendall(bytes([byte]))
            except OSError:
                break
            if select.select([connection], [], [], 2)[0]:
                break
        seconds = time.monotonic() - start
        connection.close()
    if not MESSAGE - 1 < seconds < MESSAGE + 4 + ALLOWANCE:
        return f"a message that drips was given up after {seconds:.1f} seconds"
    return others.fault("a message that drips")


def fault_of_untaken(program):
    """A client that takes no reply is given up after thirty seconds, and nobody waits for it."""
    return fault_of_replies(program, "replies that nobody takes", lambda connection: None)


def fault_of_slow_reader(program):
    """A client that takes some bytes of its replies each second is given up after thirty seconds as well."""
    return fault_of_replies(program, "replies that are taken by some bytes", lambda connection: connection.recv(16))


def fault_of_replies(program, what, take):
    """A client with long replies, of which it takes so much each second, is given up after thirty seconds."""
    with tempfile.TemporaryDirectory() as folder, Serving(program, "--connections", "1", "--data", folder) as server:
        if Client(server.port).ask("CreateSecret", Name="long", SecretString="v" * 65_536) != 200:
            return "no secret was made"
        with Others(server) as others:
            connection, start = raw(server.port, buffer=4_096), time.monotonic()
            connection.settimeout(1)
            with contextlib.suppress(TimeoutError):
                connection.sendall(message("GetSecretValue", SecretId="long") * 900)
            # Whether it was closed is not seen by the client, which has not read all that was sent.
            time.sleep(1)
            while is_held(connection) and time.monotonic() - start < REPLY + 15:
                with contextlib.suppress(OSError):
                    take(connection)
                time.sleep(0.5)
            seconds = time.monotonic() - start
            connection.close()
    if not REPLY - 1 < seconds < REPLY + 4 + ALLOWANCE:
        return f"a client with {what} was given up after {seconds:.1f} seconds"
    return others.fault(what)


def fault_of_slow_clients(program, seconds=1):
    """Ten clients that ask once every three seconds share four connection workers, and each keeps its connection."""
    longest, statuses, connections = [], [], []

    def ask_slowly(port, number):
        client = Client(port)
        time.sleep(number * 0.3)
        for _ in range(4):
            start = time.monotonic()
            with contextlib.suppress(OSError):
                statuses.append(client.ask())
            longest.append(time.monotonic() - start)
            time.sleep(3)
        connections.append(client.connections)
        client.close()

    with Serving(program, "--connections", "4") as server:
        threads = [threading.Thread(target=ask_slowly, args=(server.port, number)) for number in range(SLOW_CLIENTS)]
        for thread in threads:
            thread.start()
        for thread in threads:
            thread.join()
    if statuses.count(200) != 4 * SLOW_CLIENTS:
        return f"{statuses.count(200)} of {4 * SLOW_CLIENTS} calls of slow clients were answered"
    if connections != [1] * SLOW_CLIENTS:
        return f"slow clients had {sum(connections)} connections, and are {SLOW_CLIENTS}"
    if max(longest) > seconds:
        return f"a call of a slow client took {max(longest):.1f} seconds"
    return None


def calls_of_busy_client(port):
    """How long the longest call of a client took that asks without a rest, how many failed, and its connections."""
    client, longest, cut = Client(port), 0, 0
    for _ in range(BUSY_CALLS):
        start = time.monotonic()
        try:
            cut += client.ask() != 200
        except OSError:
            client.close()
            cut += 1
        longest = max(longest, time.monotonic() - start)
    client.close()
    return longest, cut, client.connections


def fault_of_busy_clients(program, seconds=1):
    """Ten clients that ask without a rest share four connection workers, and each keeps its connection."""
    with Serving(program, "--connections", "4") as server, multiprocessing.Pool(BUSY_CLIENTS) as pool:
        calls = pool.map(calls_of_busy_client, [server.port] * BUSY_CLIENTS)
    longest, cut, connections = (list(column) for column in zip(*calls))
    if any(cut):
        return f"{sum(cut)} calls of busy clients were not answered"
    if connections != [1] * BUSY_CLIENTS:
        return f"busy clients had {sum(connections)} connections, and are {BUSY_CLIENTS}"
    if max(longest) > seconds:
        return f"a call of a busy client took {max(longest):.1f} seconds"
    return None


def fault_of_few_files(program):
    """Where open files are few, one connection is closed for each new one, by the worker that takes the new one."""
    words, limit = ["--connections", str(FEW_FILES_WORKERS)], f"-n {FEW_FILES}"
    with tempfile.TemporaryDirectory() as folder, Serving(program, *words, "--data", folder, limit=limit) as server:
        clients, slowest = [Client(server.port) for _ in range(CALLERS)], 0
        for client in clients:
            start = time.monotonic()
            if client.ask() != 200:
                return "where files are few, a client was not answered"
            slowest = max(slowest, time.monotonic() - start)
        kept = [not is_dropped(client.connection, 0) for client in clients]
        if server.process.poll() is not None:
            return "where files are few, the program ended"
        for client in clients:
            client.close()
        if Client(server.port).ask() != 200:
            return "once the clients of few files have gone, nobody is answered"
        server.kill()
    if slowest > 1:
        return f"where files are few, a call took {slowest:.1f} seconds"
    return fault_of_kept(kept) or fault_of_limit_said(server.said)


def fault_of_kept(kept):
    """As many connections are kept as there may be, as far as the workers share them evenly, and the last one."""
    if not FEW_FILES_MOST - FEW_FILES_WORKERS <= kept.count(True) <= FEW_FILES_MOST:
        return f"where files are few, {kept.count(True)} of {FEW_FILES_MOST} connections are kept: {kept}"
    if not kept[-1]:
        return f"where files are few, the newest connection was closed: {kept}"
    return None


def fault_of_limit_said(said):
    """It is said once that idle connections are closed, and nothing else."""
    lines = [line for line in said if line.startswith(f"secretsd: there are {FEW_FILES_MOST} connections, ")]
    return None if len(lines) == 1 and len(said) == 2 else f"where files are few, it said {said}"


def fault_of_limit(program):
    """At the limit of files one connection is closed for each new one, the one that has been idle longest."""
    limit, wanted = f"-n {FEW_FILES}", [False] * (CALLERS - FEW_FILES_MOST) + [True] * FEW_FILES_MOST
    with Serving(program, "--connections", "1", limit=limit) as server:
        clients = [Client(server.port) for _ in range(CALLERS)]
        statuses = [client.ask() for client in clients]
        time.sleep(0.2)
        kept = [not is_dropped(client.connection, 0) for client in clients]
        for client in clients:
            client.close()
    if statuses != [200] * CALLERS or kept != wanted:
        return f"at the limit of files clients got {set(statuses)}, and these are kept: {kept}"
    return fault_of_busy_limit(program, limit)


def fault_of_busy_limit(program, limit):
    """At the limit of files a connection within a message is not closed for new ones, which are answered."""
    text = message("ListSecrets")
    with Serving(program, "--connections", "1", limit=limit) as server:
        idle = raw(server.port)
        begun = [raw(server.port, text[:20]) for _ in range(FEW_FILES_MOST - 1)]
        time.sleep(0.5)
        is_early = is_heard(idle)
        # Each of these is idle once it was answered, and closed for the next one.
        clients, answered = [Client(server.port) for _ in range(5)], []
        for client in clients:
            with contextlib.suppress(OSError, http.client.HTTPException):
                answered.append(client.ask())
        for connection in begun:
            connection.settimeout(5)
            with contextlib.suppress(OSError):
                connection.sendall(text[20:])
                answered.append(int(connection.recv(65_536)[9:12] or b"0"))
            connection.close()
    if is_early:
        return "an idle connection was closed at the limit of files, though nobody came"
    if answered != [200] * (5 + len(begun)):
        return f"at the limit of files 5 new clients and {len(begun)} within messages got {answered}"
    return None


def fault_of_few_polls(program):
    """Where the system has no file for each worker's poll, the program says so and ends with code 9."""
    with Serving(program, "--connections", str(2 * FEW_FILES), limit=f"-n {FEW_FILES}") as server:
        code = server.end()
    line = "secretsd: connections can't be polled: Too many open files (os error 24)"
    if code != 9 or server.said != [line, "secretsd: status 9"]:
        return f"with too few files for its workers it ended with {code} and said {server.said}"
    return None


def fault_of_no_files(program):
    """Where the program may open no file more, new clients wait until it may, which is said once, and it is at rest."""
    with Serving(program, "--connections", "2") as server:
        process, first = server.process.pid, Client(server.port)
        if first.ask() != 200:
            return "a client was not answered"
        before = resource.prlimit(process, resource.RLIMIT_NOFILE, (3, resource.getrlimit(resource.RLIMIT_NOFILE)[1]))
        waiting = [raw(server.port, message("ListSecrets")) for _ in range(3)]
        time.sleep(0.5)
        used = processor_seconds(process)
        time.sleep(1)
        used = processor_seconds(process) - used
        early = select.select(waiting, [], [], 0)[0]
        resource.prlimit(process, resource.RLIMIT_NOFILE, before)
        start = time.monotonic()
        answered = [connection.recv(65_536).startswith(b"HTTP/1.1 200 ") for connection in waiting]
        seconds = time.monotonic() - start
        answered.append(first.ask() == 200)
        first.close()
        server.kill()
    if early or not all(answered) or seconds > 1:
        return f"without files {len(early)} were answered, and {answered.count(True)} of 4 {seconds:.1f} s behind that"
    if used > 0.3:
        return f"without files the program computes for {used:.1f} of 1 seconds"
    if sum(line.startswith(REFUSED) for line in server.said) != 1 or len(server.said) != 2:
        return f"without files it said {server.said}"
    return None


def processor_seconds(process):
    """For how many seconds a process has computed."""
    with open(f"/proc/{process}/stat", encoding="ascii") as file:
        fields = file.read().rpartition(")")[2].split()
    return (int(fields[11]) + int(fields[12])) / os.sysconf("SC_CLK_TCK")


def fault_of_failed_listener(program):
    """Where no connection can be accepted any more, the program says so and ends with code 9."""
    with Serving(program, "--connections", "2") as server:
        if Client(server.port).ask() != 200:
            return "a client was not answered"
        shut_listener(server.process.pid, server.port)
        code = server.end()
        lines = [line for line in server.said if line.startswith(REFUSED)]
        if code != 9 or len(lines) != 1 or server.said[-1] != "secretsd: status 9":
            return f"where its listener failed, it ended with {code} and said {server.said}"
    return None


def shut_listener(process, port):
    """Shuts the listener of another process."""
    libc = ctypes.CDLL(None, use_errno=True)
    other = os.pidfd_open(process)
    for file in os.listdir(f"/proc/{process}/fd"):
        taken = libc.syscall(PIDFD_GETFD, other, int(file), 0)
        # The server may have closed it since it was listed.
        if taken < 0:
            continue
        if not os.readlink(f"/proc/self/fd/{taken}").startswith("socket:"):
            os.close(taken)
            continue
        got = socket.socket(fileno=taken)
        if got.getsockname()[1] == port and got.getsockopt(socket.SOL_SOCKET, socket.SO_ACCEPTCONN):
            got.shutdown(socket.SHUT_RD)
        got.close()
    os.close(other)


def fault_of_failed_accepts(program):
    """An accept that fails for its peer, its network or a lack of the system's is tried again, by each worker."""
    want_strace()
    for error, times, seconds in FAILED_ACCEPTS:
        with Serving(program, "--connections", str(WORKERS), before=traced(ACCEPTS, error, times)) as server:
            start = time.monotonic()
            try:
                fault = fault_of_workers(server)
            except (OSError, http.client.HTTPException) as refused:
                fault = repr(refused)
            passed = time.monotonic() - start
            server.kill()
        # The first of them fail while the line is read that it listens.
        fault = fault or (passed < seconds / 2 and f"that took {passed:.1f} seconds")
        if fault or not any(line.startswith(REFUSED) for line in server.said):
            return f"where {times} accepts in a row fail by {error}: {fault}, and it said {server.said}"
    return None


def traced(calls, error, times):
    """The command that starts another, in each thread of which the first so many of these system calls fail so."""
    failing = ["-e", f"trace={calls}", "-e", f"inject={calls}:error={error}:when=1..{times}"]
    return ["strace", "-D", "-f", "-qq", "-o", os.devnull, *failing]


def want_strace():
    """Ends a case where there is no strace, or the system lets it trace nothing."""
    traces = shutil.which("strace") and subprocess.run([*traced(ACCEPTS, "EPERM", 1), "true"], capture_output=True)
    if not traces or traces.returncode:
        raise NotTried("strace, where it may trace")


def fault_of_workers(server):
    """Clients that keep their connections are all answered, and each connection worker has some of them."""
    clients = [Client(server.port) for _ in range(4 * WORKERS)]
    answered = [client.ask() == 200 for client in clients for _ in range(2)]
    connections, counts = sum(client.connections for client in clients), connections_of_workers(server.process.pid)
    for client in clients:
        client.close()
    if not all(answered) or connections != len(clients):
        return f"{answered.count(True)} of {len(answered)} calls are answered, on {connections} connections"
    return None if len(counts) == WORKERS and min(counts) > 0 else f"the workers have {counts} connections"


def fault_of_few_threads(program):
    """Where the system has too few threads, the program says so, ends with code 9 and does not listen."""
    with Serving(program, "--connections", "64", "--workers", "16", limit="-s 8192 && ulimit -v 262144") as server:
        code = server.end()
        if any("AddressSanitizer" in line for line in server.said):
            raise NotTried("a program without checks of memory")
        said = [line for line in server.said if "threads" in line]
        if code != 9 or len(said) != 1 or any("listening" in line for line in server.said):
            return f"where threads are few, it ended with {code} and said {server.said}"
    return None


def fault_of_early_client(program):
    """A client that connects while the program opens its folder is answered behind that, and keeps its connection."""
    want_strace()
    # No worker gets its first connection within a second.
    delayed = ["-e", f"trace={ACCEPTS}", "-e", f"inject={ACCEPTS}:delay_enter=1000000:when=1"]
    with Serving(program, before=["strace", "-D", "-f", "-qq", "-o", os.devnull, *delayed]) as server:
        silent, client = raw(server.port), Client(server.port)
        statuses = [client.ask(), client.ask()]
        silent.sendall(message("ListSecrets"))
        is_answered = silent.recv(65_536).startswith(b"HTTP/1.1 200 ")
        silent.close()
        client.close()
    if statuses != [200, 200] or client.connections != 1 or not is_answered:
        return f"early clients got {statuses} on {client.connections} connections, and a silent one {is_answered}"
    return None


# Those of a row are tried side by side: they mostly wait.
CASES = [
    {"long bodies": fault_of_long_bodies},
    {"many calls": fault_of_many_calls},
    {"calls of boto3": fault_of_boto3},
    {"few files": fault_of_few_files, "few files for polls": fault_of_few_polls},
    {"limit of files": fault_of_limit, "no files": fault_of_no_files},
    {"early client": fault_of_early_client},
    {"failed accepts": fault_of_failed_accepts},
    {"failed listener": fault_of_failed_listener},
    {"few threads": fault_of_few_threads},
    {"busy clients": fault_of_busy_clients},
    {"slow clients": fault_of_slow_clients, "silence": fault_of_silence},
    {"drip": fault_of_drip, "untaken replies": fault_of_untaken, "slow reader": fault_of_slow_reader},
]
# Those that take more than a minute. They are tried beside the last row.
LONG_CASES = {"idle clients": fault_of_idle, "stopped program of idle clients": fault_of_stopped_idle}


def faults_of_row(program, row):
    """What is wrong with the cases of a row, and what those want that can't be tried here."""
    faults, wanted = {}, {}

    def note(name, case):
        try:
            faults[name] = case(program)
        except NotTried as thing:
            wanted[name] = thing
        except Exception as error:
            faults[name] = repr(error)

    threads = [threading.Thread(target=note, args=item) for item in row.items()]
    for thread in threads:
        thread.start()
    for thread in threads:
        thread.join()
    return {name: fault for name, fault in faults.items() if fault}, wanted


def fault_of_rows(program, what, rows):
    """The first row of cases in which something is wrong, and what."""
    for row in rows:
        faults, wanted = faults_of_row(program, row)
        if faults:
            return "; ".join(f"{name}: {fault}" for name, fault in faults.items())
        if tried := [name for name in row if name not in wanted]:
            print(f"serves: {what} as they should be: {', '.join(tried)}")
        for name, thing in wanted.items():
            print(f"serves: NOT TRIED, since it wants {thing}: {name}")
    return None
