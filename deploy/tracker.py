"""A tracker's side of the protocol, a server to try, and a reader of archives, for the scripts beside this file and in bench/. Python's
standard library alone, loopback alone; Linux."""
import os, signal, socket, struct, subprocess, time

TOP = os.path.dirname(os.path.dirname(os.path.abspath(__file__)))


def _table():
    """The checksum of each byte: CRC-16/IBM, reflected, polynomial A001."""
    for value in range(256):
        for _ in range(8):
            value = (value >> 1) ^ 0xA001 if value & 1 else value >> 1
        yield value


CRC = tuple(_table())


def crc(data):
    value = 0
    for byte in data:
        value = (value >> 8) ^ CRC[(value ^ byte) & 255]
    return value


def login(imei):
    return struct.pack(">H", 15) + b"%015d" % imei


def record(time):
    """A Codec 8 record of this time, 30 bytes; all else in it is zero."""
    return struct.pack(">Q", time) + bytes(22)


def frame(times):
    body = bytes([8, len(times)]) + b"".join(map(record, times)) + bytes([len(times)])
    return struct.pack(">II", 0, len(body)) + body + struct.pack(">I", crc(body))


def whole(link, size):
    """This number of bytes of a link; fewer only where it ended."""
    got = b""
    while len(got) < size:
        piece = link.recv(size - len(got))
        if not piece:
            break
        got += piece
    return got


def logged_in(port, imei, timeout=30):
    """A link on which this device has logged in."""
    link = socket.create_connection(("127.0.0.1", port), timeout)
    link.setsockopt(socket.IPPROTO_TCP, socket.TCP_NODELAY, 1)
    link.sendall(login(imei))
    if whole(link, 1) != b"\x01":
        link.close()
        raise ConnectionError("the login wasn't accepted")
    return link


def reset(link):
    """Ends a link at once, with a reset in place of an end."""
    link.setsockopt(socket.SOL_SOCKET, socket.SO_LINGER, struct.pack("ii", 1, 0))
    link.close()


def archived(path):
    """The records of an archive of Codec 8 records of 30 bytes, in order: pairs of IMEI and time."""
    data = open(path, "rb").read()
    assert data[:8] == b"FMBARCH1", "an archive"
    found, at = [], 8
    while at < len(data) and data[at] == 0xA5:
        (length,) = struct.unpack_from(">I", data, at + 1)
        end = at + 5 + length
        if end >= len(data):
            break
        imei, codec, count = struct.unpack_from(">QBB", data, at + 5)
        assert codec == 8 and length == 10 + 30 * count, (at, codec, length, count)
        found += [(imei, struct.unpack_from(">Q", data, at + 15 + 30 * i)[0]) for i in range(count)]
        at = end
    return found


def free_port():
    with socket.socket() as taken:
        taken.bind(("127.0.0.1", 0))
        return taken.getsockname()[1]


def listens(port):
    """Whether a port of this machine is listened at, without a connection to it."""
    wanted = f"{port:04X}"
    with open("/proc/net/tcp") as table:
        return any(line.split()[3] == "0A" and line.split()[1].endswith(":" + wanted) for line in table.readlines()[1:])


def words(fmb, address, archive, workers, sessions, *imeis):
    return [fmb, "serve", address, archive, *imeis, "--workers", str(workers), "--sessions", str(sessions)]


class Server:
    """A server that runs, with what it says in the files PATH.said and PATH.log."""

    def __init__(self, command, path, port):
        self.said, self.log, self.port = path + ".said", path + ".log", port
        with open(self.said, "wb") as said, open(self.log, "ab") as log:
            self.process = subprocess.Popen(command, stdin=subprocess.DEVNULL, stdout=said, stderr=log)
        limit = time.monotonic() + 60
        while not listens(port):
            if self.process.poll() is not None or time.monotonic() > limit:
                raise RuntimeError(f"it doesn't listen: {self.status(1)} {self.lines()}")
            time.sleep(0.005)

    def kill(self):
        self.process.send_signal(signal.SIGKILL)
        self.process.wait()

    def status(self, seconds):
        return self.process.wait(seconds)

    def lines(self):
        return open(self.said).read().splitlines()


def serve(fmb, path, workers, sessions, *imeis):
    """A server of the archive at a path, on a free port."""
    port = free_port()
    return Server(words(fmb, f"127.0.0.1:{port}", path, workers, sessions, *imeis), path, port)
