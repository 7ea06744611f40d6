"""What the servers of this case share. Server 1 is the program itself; server 2 misbehaves."""
import os, socket, struct, sys

CALL, REPLY, WRITE, ASK, TURN = 1, 2, 3, 4, 5
DONE, REFUSED, CONTENT, TOOLS = 0, 1, 2, 3
SESSION = 1


def note():
    """The process is to be gone when the script has ended."""
    with open("pids", "a") as pids:
        pids.write(f"{os.getpid()}\n")


def begin():
    note()
    if sys.argv[2] == "1":
        os.execv(os.environ["OLECON"], ["olecon", *sys.argv[1:]])


def frame(kind, *numbers, rest=b"", session=SESSION):
    """A frame of these numbers; all but a Turn begin with the session."""
    numbers = numbers if kind == TURN else (session, *numbers)
    body = struct.pack(f"<{len(numbers)}I", *numbers) + rest
    return b"OLCM\x02" + bytes([kind]) + struct.pack("<I", len(body)) + body


def receive(link, count):
    got = b""
    while len(got) < count:
        try:
            piece = link.recv(count - len(got))
        except ConnectionResetError:
            # the container dropped the link with bytes on it that it didn't read
            return None
        if not piece:
            return None
        got += piece
    return got


def calls(link):
    """The calls up to a Turn, each as (incarnation, activation, number, operation); none where the link was closed."""
    found = []
    while True:
        head = receive(link, 10)
        if head is None:
            return None
        kind, length = head[5], struct.unpack("<I", head[6:])[0]
        body = receive(link, length)
        if kind == TURN:
            return found
        found.append((*struct.unpack("<III", body[4:16]), body[16]))


def serve(answer):
    """Answers each turn of each link by what this makes of its calls."""
    begin()
    listener = socket.create_server(("127.0.0.1", 0))
    print(listener.getsockname()[1], flush=True)
    while True:
        link, _ = listener.accept()
        while (asked := calls(link)) is not None:
            link.sendall(answer(link, asked))


def done(call, session=SESSION):
    inc, act, n, _ = call
    return frame(REPLY, inc, act, n, rest=bytes([DONE]), session=session)


def each(reply):
    """A turn in which each call has this reply."""
    return lambda link, asked: b"".join(map(reply, asked)) + frame(TURN)
