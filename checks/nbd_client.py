"""An NBD client by the protocol alone, for the checks: the fixed newstyle handshake, and requests with several in flight.

Source: the NBD protocol, doc/proto.md.
"""
import socket
import struct

REQUEST_MAGIC, SIMPLE_REPLY_MAGIC, OPTION_REPLY_MAGIC = 0x25609513, 0x67446698, 0x3E889045565A9
READ, WRITE, DISC, FLUSH = range(4)
FUA = 1
EXPORT_NAME, ABORT, LIST, INFO, GO = 1, 2, 3, 6, 7
ACK, SERVER, INFORMATION = 1, 2, 3
UNSUPPORTED, INVALID, UNKNOWN = 0x80000001, 0x80000003, 0x80000006
SECONDS = 60


def request(kind, cookie, offset=0, length=0, flags=0):
    """The 28 bytes of a request."""
    return struct.pack(">IHHQQI", REQUEST_MAGIC, flags, kind, cookie, offset, length)


def name_payload(name=b"", infos=()):
    """What INFO and GO carry."""
    return struct.pack(">I", len(name)) + name + struct.pack(f">H{len(infos)}H", len(infos), *infos)


class Connection:
    """A connection to a server, from its first byte on."""

    def __init__(self, path):
        self.socket = socket.socket(socket.AF_UNIX, socket.SOCK_STREAM)
        self.socket.settimeout(SECONDS)
        self.socket.connect(path)

    def __enter__(self):
        return self

    def __exit__(self, *_):
        self.socket.close()

    def read(self, count):
        """So many bytes, or those before the end. A server that goes while bytes for it are unread resets the connection."""
        got = bytearray()
        while len(got) < count:
            try:
                piece = self.socket.recv(count - len(got))
            except ConnectionResetError:
                break
            if not piece:
                break
            got += piece
        return bytes(got)

    def greet(self, flags=3):
        """The server's greeting; the client's flags behind it."""
        greeting = self.read(18)
        self.socket.sendall(struct.pack(">I", flags))
        return greeting

    def option(self, option, payload=b""):
        """Sends an option: the replies to it, as kinds and payloads, up to the last."""
        self.socket.sendall(struct.pack(">8sII", b"IHAVEOPT", option, len(payload)) + payload)
        replies = []
        while True:
            head = self.read(20)
            if len(head) < 20:
                return replies
            magic, of, kind, length = struct.unpack(">QIII", head)
            if (magic, of) != (OPTION_REPLY_MAGIC, option):
                return replies + [None]
            replies.append((kind, self.read(length)))
            if kind not in (SERVER, INFORMATION):
                return replies

    def go(self):
        """Negotiates: the bytes of the export, its flags, and the least, best and largest length of a request."""
        self.greet()
        replies = dict((kind, payload) if kind != INFORMATION else ((kind, payload[:2]), payload[2:])
                       for kind, payload in self.option(GO, name_payload(infos=(3,))))
        if ACK not in replies:
            raise OSError(f"no session: {replies}")
        size, flags = struct.unpack(">QH", replies[INFORMATION, b"\0\0"])
        return size, flags, struct.unpack(">III", replies[INFORMATION, b"\0\3"])

    def reply(self, lengths):
        """The next reply, of requests with these cookies and lengths of data: cookie, error and data; or None at the end."""
        head = self.read(16)
        if len(head) < 16:
            return None
        magic, error, cookie = struct.unpack(">IIQ", head)
        if magic != SIMPLE_REPLY_MAGIC:
            raise OSError(f"no reply: {head.hex()}")
        return cookie, error, self.read(lengths[cookie]) if error == 0 else b""

    def ask(self, requests, most=16):
        """Sends requests, (kind, offset, length or bytes, flags) each, with so many in flight: what each is replied."""
        lengths, replies, asked = {}, {}, 0
        while len(replies) < len(requests):
            while asked < len(requests) and asked - len(replies) < most:
                kind, offset, what, flags = requests[asked]
                data = what if kind == WRITE else b""
                lengths[asked] = what if kind == READ else 0
                self.socket.sendall(request(kind, asked, offset, len(data) or lengths[asked], flags) + data)
                asked += 1
            told = self.reply(lengths)
            if told is None:
                return replies
            replies[told[0]] = told[1:]
        return replies

    def disconnect(self):
        """Asks for the end, and waits for it: whether nothing comes behind it."""
        self.socket.sendall(request(DISC, 1 << 60))
        return self.read(1) == b""
