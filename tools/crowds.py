"""What tools/serves tries of many connections at once: none of them waits for another one, whatever that does.

Each case is a function that takes the program, and gives what is wrong, or nothing. Where it can be, the program has
one connection worker, so that all connections share it, and beside each case two other clients are answered.
"""

import contextlib
import http.client
import os
import re
import resource
import signal
import socket
import struct
import tempfile
import threading
import time

from connections import MESSAGES, Client, NotTried, Others, Serving, connections_of_workers, is_checked, is_heard
from connections import memory_of, message, processor_seconds, raw, seconds_until_closed

# A head is refused that doesn't end within so many bytes.
HEAD_MOST = 16_384
BODY_MOST = 524_288
PIPELINED = 1_500
RESETS = 20
HALF_SENT = 1_000
STEADY = 300
CONNECTS = 2_000
NEWCOMERS = 20
# So many that they take about so long.
FEWEST_GREEDY, MOST_GREEDY, GREEDY_SECONDS = 10, 200, 3
SENDERS, PAUSING = 8, 10
HOARDERS, HOARDED_BY = 600, 4
# So many messages of the greatest length have 128 MiB. Behind that each worker but one may keep one message more: it
# has less than its part of them, and one that has more closes a connection only when it next keeps something.
KEPT_MOST = (128 << 20) // BODY_MOST + HOARDED_BY - 1
# More memory than the program may have for what it holds, beside what it needs for itself.
MEMORY_MOST = 400_000_000
ONE_WORKER = ["--connections", "1"]
LISTING = message("ListSecrets")


def statuses_of(text):
    """The statuses of the whole replies in what a program sent, and the bytes behind them."""
    statuses, start = [], 0
    while (end := text.find(b"\r\n\r\n", start)) >= 0:
        head = text[start:end]
        behind = end + 4 + int(re.search(rb"\r\nContent-Length: (\d+)", head)[1])
        if behind > len(text):
            break
        statuses.append(int(head.split()[1]))
        start = behind
    return statuses, text[start:]


def take_reply(connection):
    """The status of the next reply on a connection, or 0 where that ends before."""
    text = b""
    while not (found := statuses_of(text)[0]):
        piece = connection.recv(65_536)
        if not piece:
            return 0
        text += piece
    return found[0]


def fault_of_end(connection, wanted):
    """Whether these are the replies that come on a connection, and behind them its end."""
    seconds, text = seconds_until_closed(connection)
    statuses, rest = statuses_of(text)
    if statuses != wanted or rest:
        shown = {status: statuses.count(status) for status in statuses}
        return f"replies {shown} and then {rest[-40:]!r} came within {seconds:.1f} s, and not {len(wanted)}"
    return None


def reset(connection):
    """Cuts a connection, so that the other side is told so."""
    connection.setsockopt(socket.SOL_SOCKET, socket.SO_LINGER, struct.pack("ii", 1, 0))
    connection.close()


def connected_files(process):
    """How many connections, listeners included, a process has."""
    count = 0
    for file in os.listdir(f"/proc/{process}/fd"):
        with contextlib.suppress(FileNotFoundError):
            count += os.readlink(f"/proc/{process}/fd/{file}").startswith("socket:")
    return count


def fault_of_resets(program):
    """Connections that are cut within a head, a body or a reply are given up at once, and no other one is."""
    part = LISTING.partition(b"\r\n\r\n")
    asked = message("GetSecretValue", SecretId="long") * 200
    sent = {"a head": part[0], "a body": part[0] + part[1] + part[2][:1], "a reply": asked}
    with Serving(program, *ONE_WORKER) as server, Others(server) as others:
        if Client(server.port).ask("CreateSecret", Name="long", SecretString="v" * 65_536) != 200:
            return "no secret was made"
        for text in sent.values():
            connections = [raw(server.port, text, buffer=4_096) for _ in range(RESETS)]
            time.sleep(0.2)
            for connection in connections:
                reset(connection)
        time.sleep(0.5)
        # The listener, the connection that one of the others keeps, and the one that the other one may have.
        count = connected_files(server.process.pid)
    if count > 3:
        return f"the program has {count} sockets, once the connections were cut"
    if len(server.said) != 1:
        return f"of connections that were cut it said {server.said}"
    return others.fault("connections that are cut")


def fault_of_endless_head(program):
    """A head that is too long is refused as soon as that is known, and the connection ends."""
    line = b"X-Long: " + b"x" * 990 + b"\r\n"
    with Serving(program, *ONE_WORKER) as server, Others(server) as others:
        connection, sent = raw(server.port, b"POST / HTTP/1.1\r\n"), 17
        while sent < HEAD_MOST - len(line):
            connection.sendall(line)
            sent += len(line)
            time.sleep(0.02)
        if is_heard(connection):
            return f"a head was refused behind {sent} bytes"
        connection.sendall(line)
        fault = fault_of_end(connection, [400])
    if fault:
        return f"of a head without an end: {fault}"
    return others.fault("a head without an end")


def room_for(wanted):
    """How many connections may be made, of those that are wanted: both sides have as many files."""
    return min(wanted, resource.getrlimit(resource.RLIMIT_NOFILE)[0] - 200)


def fault_of_half_sent(program):
    """A thousand clients have sent half of a message each: others are answered, and they once they send the rest."""
    half, connections = len(LISTING) // 2, []
    with Serving(program) as server:
        with Others(server) as others:
            for number in range(room_for(HALF_SENT)):
                connections.append(raw(server.port, LISTING[:half]))
                # As many as the system keeps for a listener don't wait there at once.
                time.sleep(0.05 if number % 50 == 0 else 0)
            time.sleep(1)
        counts = connections_of_workers(server.process.pid)
        for connection in connections:
            connection.sendall(LISTING[half:])
        answered = sum(take_reply(connection) == 200 for connection in connections)
        for connection in connections:
            connection.close()
    if answered != len(connections):
        return f"{answered} of {len(connections)} clients are answered that sent the half of a message each"
    # Each worker has about a quarter of them.
    if min(counts) < len(connections) / 8:
        return f"of {len(connections)} connections the workers have {counts}"
    return others.fault("a thousand halves of messages")


def fault_of_steady_clients(program):
    """Three hundred connections that are idle for five seconds cost nothing, and are answered then as before."""
    with Serving(program, *ONE_WORKER) as server:
        clients = [Client(server.port) for _ in range(room_for(STEADY))]
        statuses = [client.ask() for client in clients]
        used = processor_seconds(server.process.pid)
        time.sleep(5)
        used = processor_seconds(server.process.pid) - used
        start = time.monotonic()
        statuses += [client.ask() for client in clients]
        seconds, connections = time.monotonic() - start, sum(client.connections for client in clients)
        for client in clients:
            client.close()
    if statuses.count(200) != 2 * len(clients) or connections != len(clients):
        return f"{statuses.count(200)} calls of {2 * len(clients)} were answered, on {connections} connections"
    if used > 0.5:
        return f"{len(clients)} idle connections cost {used:.1f} seconds of a processor in 5"
    return f"behind that, their calls took {seconds:.1f} seconds" if seconds > 10 else None


def fault_of_connects(program):
    """Two thousand clients connect one after another, and each is answered."""
    with Serving(program) as server:
        client = Client(server.port)
        for call in range(CONNECTS):
            start = time.monotonic()
            if client.ask() != 200:
                return f"client {call + 1} was not answered"
            client.close()
            if time.monotonic() - start > 1:
                return f"client {call + 1} was answered after {time.monotonic() - start:.1f} seconds"
    return None


def fault_of_busy_client(program):
    """Beside a client that asks the one worker without a rest, each client that comes is answered within a second."""
    with Serving(program, *ONE_WORKER) as server:
        statuses, ends = [], threading.Event()

        def ask_on():
            client = Client(server.port)
            while not ends.is_set():
                statuses.append(client.ask())
            client.close()

        busy = threading.Thread(target=ask_on)
        busy.start()
        time.sleep(0.2)
        slowest = 0
        for _ in range(NEWCOMERS):
            start, client = time.monotonic(), Client(server.port)
            statuses.append(client.ask())
            client.close()
            slowest = max(slowest, time.monotonic() - start)
        ends.set()
        busy.join()
    if set(statuses) != {200}:
        return f"beside a busy client there were the statuses {sorted(set(statuses))}"
    return f"beside a busy client a newcomer waited {slowest:.1f} seconds" if slowest > 1 else None


def fault_of_pipelining(program):
    """Of messages that come in one go a connection gets a thousand replies, and then the end."""
    with Serving(program, *ONE_WORKER) as server, Others(server) as others:
        fault = fault_of_end(raw(server.port, LISTING * PIPELINED), [200] * MESSAGES)
    return f"of {PIPELINED} messages in one go: {fault}" if fault else others.fault("messages in one go")


def fault_of_half_closed(program):
    """A client that sends no more, behind 120 messages or within one, gets all replies and then the end."""
    with Serving(program, *ONE_WORKER) as server, Others(server) as others:
        # A visit ends behind 50 messages, and what is no whole message has no reply.
        for count, more in ((120, b""), (1, b""), (49, b""), (50, b""), (100, b""), (2, LISTING[:-1])):
            connection = raw(server.port, LISTING * count + more)
            connection.shutdown(socket.SHUT_WR)
            connection.settimeout(5)
            if fault := fault_of_end(connection, [200] * count):
                return f"of {count} messages and no more: {fault}"
        connection = raw(server.port)
        connection.shutdown(socket.SHUT_WR)
        seconds, text = seconds_until_closed(connection)
    if seconds > 1 or text:
        return f"a client that sends nothing got {text!r} and the end after {seconds:.1f} seconds"
    return others.fault("clients that send no more")


def fault_of_last_messages(program):
    """Behind a message that asks for the end of its connection, and behind one of HTTP/1.0, it ends."""
    closing = LISTING.replace(b"\r\n", b"\r\nConnection: close\r\n", 1)
    old = LISTING.replace(b"HTTP/1.1", b"HTTP/1.0")
    with Serving(program, *ONE_WORKER) as server, Others(server) as others:
        for last in (closing, old):
            for text, wanted in ((last, [200]), (LISTING + last + LISTING * 3, [200, 200])):
                if fault := fault_of_end(raw(server.port, text), wanted):
                    return f"of {last[:60]!r}: {fault}"
        time.sleep(0.2)
    return others.fault("connections that end")


def fault_of_paused_message(program):
    """A client that is silent for two seconds within a message, in its head and in its body, is answered."""
    for cut in (20, len(LISTING) - 1):
        with Serving(program, *ONE_WORKER) as server, Others(server) as others:
            connection = raw(server.port, LISTING + LISTING[:cut])
            first = take_reply(connection)
            time.sleep(2)
            connection.sendall(LISTING[cut:])
            statuses = [first, take_reply(connection)]
            connection.close()
        if statuses != [200, 200]:
            return f"a client that was silent behind {cut} bytes of a message got {statuses}"
        if fault := others.fault("a client that is silent within a message"):
            return fault
    return None


def fault_of_late_rest(program):
    """A client that still sends a body that is too long, or bytes behind a bad head, reads what is said of it."""
    bodies = b"POST / HTTP/1.1\r\nContent-Length: 12000000\r\n\r\n"
    with Serving(program, *ONE_WORKER) as server, Others(server) as others:
        for head, wanted in ((bodies, 413), (b"no message\r\n\r\n", 400)):
            connection = raw(server.port, head)
            for _ in range(120):
                connection.sendall(b"x" * 100_000)
            if fault := fault_of_end(connection, [wanted]):
                return f"of 12 MB behind {head[:20]!r}: {fault}"
    return others.fault("long bodies")


def fault_of_byte_senders(program, seconds=4):
    """Eight clients that send a byte a second cost ten others nothing, which ask five times a second."""
    slowest, faults, is_over = [], [], threading.Event()

    def ask(port):
        client = Client(port)
        while not is_over.wait(0.2):
            start = time.monotonic()
            try:
                if client.ask() != 200:
                    faults.append("no 200")
            except (OSError, http.client.HTTPException) as error:
                faults.append(repr(error))
            slowest.append(time.monotonic() - start)
        if client.connections != 1:
            faults.append(f"{client.connections} connections")
        client.close()

    with Serving(program, "--connections", "4") as server:
        senders = [raw(server.port) for _ in range(SENDERS)]
        threads = [threading.Thread(target=ask, args=(server.port,)) for _ in range(PAUSING)]
        for thread in threads:
            thread.start()
        for byte in LISTING[:seconds]:
            for sender in senders:
                sender.sendall(bytes([byte]))
            time.sleep(1)
        is_over.set()
        for thread in threads:
            thread.join()
        for sender in senders:
            sender.sendall(LISTING[seconds:])
        answered = sum(take_reply(sender) == 200 for sender in senders)
        for sender in senders:
            sender.close()
    if faults or max(slowest) > 1 or len(slowest) < PAUSING * seconds:
        return f"of {len(slowest)} calls {len(faults)} failed, and one took {max(slowest):.1f} seconds: {faults[:1]}"
    return None if answered == SENDERS else f"{answered} of {SENDERS} clients that send a byte a second are answered"


def fault_of_greedy_clients(program):
    """Clients that send a thousand messages in one go share one worker with others, who have their turn meanwhile."""
    with Serving(program, *ONE_WORKER) as server:
        fault, alone = fault_of_greedy(server.port, 1)
        count = max(FEWEST_GREEDY, min(round(GREEDY_SECONDS / alone), MOST_GREEDY))
        with Others(server) as others:
            second, seconds = fault_of_greedy(server.port, count)
    # Each of them has twenty turns of fifty messages, and few of theirs may pass before another one is answered.
    return fault or second or others.fault(f"{count} greedy clients", max(others.most, seconds / 2))


def fault_of_greedy(port, count):
    """What is wrong with the replies to so many greedy clients at once, and how long they took."""
    faults = []

    def take(connection):
        faults.append(fault_of_end(connection, [200] * MESSAGES))

    start, connections = time.monotonic(), [raw(port) for _ in range(count)]
    threads = [threading.Thread(target=take, args=(connection,)) for connection in connections]
    for connection in connections:
        connection.sendall(LISTING * MESSAGES)
    for thread in threads:
        thread.start()
    for thread in threads:
        thread.join()
    found = [fault for fault in faults if fault]
    return f"of {count} greedy clients: {found[0]}" if found else None, time.monotonic() - start


def fault_of_stopped_program(program):
    """A program that is stopped and goes on, while it waits for its clients, goes on to serve them."""
    with Serving(program) as server:
        clients = [Client(server.port) for _ in range(8)]
        statuses = [client.ask() for client in clients]
        for _ in range(3):
            for number in (signal.SIGSTOP, signal.SIGCONT):
                server.process.send_signal(number)
                time.sleep(0.1)
            statuses += [client.ask() for client in clients]
        connections = sum(client.connections for client in clients)
        for client in clients:
            client.close()
        is_ended = server.process.poll() is not None
        server.kill()
    if is_ended or connections != len(clients) or statuses.count(200) != len(statuses) or len(server.said) != 1:
        return f"clients got {set(statuses)} on {connections} connections, and it said {server.said}"
    return None


def fault_of_hoarders(program):
    """Of messages that are not ended about 128 MiB are held, which is said once, and others are answered."""
    with Serving(program, "--connections", str(HOARDED_BY)) as server:
        if is_checked(server.process.pid):
            raise NotTried("a program without checks of memory")
        with Others(server) as others:
            kept, most = hoarded(server)
        is_ended = server.process.poll() is not None
        server.kill()
    lines = [line for line in server.said if " have reached 128 MiB: " in line]
    if most > MEMORY_MOST or is_ended:
        return f"for messages that are not ended {most / 1e6:.0f} MB are held"
    # What is kept of them is about 128 MiB, and not much less.
    if len(lines) != 1 or len(server.said) != 2 or not KEPT_MOST * 3 // 4 <= kept <= KEPT_MOST:
        return f"of {HOARDERS} messages that are not ended {kept} are kept, and it said {server.said}"
    return others.fault("messages that are not ended")


def hoarded(server):
    """How many of the connections are kept that send the most of a message each, and the most memory meanwhile."""
    head = f"POST / HTTP/1.1\r\nX-Amz-Target: secretsmanager.PutSecretValue\r\nContent-Length: {BODY_MOST}\r\n\r\n"
    part, process, connections, kept, most = head.encode() + b"x" * (BODY_MOST - 1_000), server.process.pid, [], 0, 0
    for _ in range(room_for(HOARDERS)):
        connections.append(raw(server.port))
        # One that is closed while it sends is among those that hold most.
        with contextlib.suppress(OSError):
            connections[-1].sendall(part)
        most = max(most, memory_of(process, "VmRSS"))
    # Until at two looks in a row no further one is closed: on a busy machine the last may come late.
    looks = 0
    for _ in range(40):
        time.sleep(0.5)
        before, kept = kept, sum(not is_cut(connection) for connection in connections)
        most = max(most, memory_of(process, "VmRSS"))
        looks = looks + 1 if kept == before else 0
        if looks == 2:
            break
    for connection in connections:
        connection.close()
    return kept, most


def is_cut(connection):
    """Whether the other side has closed a connection."""
    connection.setblocking(False)
    try:
        return not connection.recv(1)
    except BlockingIOError:
        return False
    except OSError:
        return True


# Those of a row are tried side by side: they mostly wait.
CASES = [
    {"resets": fault_of_resets, "endless head": fault_of_endless_head},
    {"pipelining": fault_of_pipelining, "half-closed": fault_of_half_closed, "last messages": fault_of_last_messages},
    {"late rest": fault_of_late_rest, "stopped program": fault_of_stopped_program},
    {
        "paused message": fault_of_paused_message,
        "byte senders": fault_of_byte_senders,
        "steady clients": fault_of_steady_clients,
        "busy client": fault_of_busy_client,
    },
    {"half-sent messages": fault_of_half_sent},
    {"connects": fault_of_connects},
    {"greedy clients": fault_of_greedy_clients},
    {"hoarders": fault_of_hoarders},
]
