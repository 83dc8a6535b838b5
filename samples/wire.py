"""Protocol Buffers, gRPC, HTTP/2 and HPACK, spelled by hand, so that the samples come from outside the program."""


def varint(n):
    n &= 2**64 - 1
    out = bytearray()
    while n >= 128:
        out.append(n % 128 + 128)
        n //= 128
    out.append(n)
    return bytes(out)


def number(field, n):
    return varint(field * 8) + varint(n)


def payload(field, data):
    return varint(field * 8 + 2) + varint(len(data)) + data


def framed(*messages):
    return b"".join(b"\0" + len(m).to_bytes(4, "big") + m for m in messages)


# ---- the messages of the write service

def descriptor(*fields):
    """A DescriptorProto: name 1, field 2, each a FieldDescriptorProto: name 1, number 3, label 4, type 5."""
    message = payload(1, b"Fruit")
    for at, (name, kind) in enumerate(fields, 1):
        message += payload(2, payload(1, name.encode()) + number(3, at) + number(4, 1) + number(5, kind))
    return message


def append(rows, offset=None, stream=None, fields=None):
    """An AppendRowsRequest: write_stream 1, offset 2 {value 1}, proto_rows 4 {writer_schema 1 {proto_descriptor 1},
    rows 2 {serialized_rows 1}}."""
    message = b""
    if stream is not None:
        message += payload(1, stream.encode())
    if offset is not None:
        message += payload(2, number(1, offset) if offset else b"")
    schema = payload(1, payload(1, descriptor(*fields))) if fields else b""
    return message + payload(4, schema + payload(2, b"".join(payload(1, row) for row in rows)))


def echo(stream):
    """The write_stream 5 of an AppendRowsResponse."""
    return payload(5, stream.encode()) if stream else b""


def accepted(offset, stream=None):
    """An AppendRowsResponse: append_result 1 {offset 1 {value 1}}."""
    place = payload(1, number(1, offset) if offset else b"") if offset is not None else b""
    return payload(1, place) + echo(stream)


def refused(code, text, stream=None):
    """An AppendRowsResponse: error 2 {code 1, message 2}."""
    return payload(2, number(1, code) + payload(2, text.encode())) + echo(stream)


def rows_refused(*errors):
    """An AppendRowsResponse: error 2, and row_errors 4 {index 1, code 2, message 3}."""
    reply = refused(3, "rows refused")
    for index, text in errors:
        place = number(1, index) if index else b""
        reply += payload(4, place + number(2, 1) + payload(3, text.encode()))
    return reply


def table_schema(*columns):
    """A TableSchema: fields 1 {name 1, type 2, mode 3}."""
    return b"".join(payload(1, payload(1, name.encode()) + number(2, kind) + number(3, mode))
                    for name, kind, mode in columns)


def write_stream(name, kind, created=None, committed=None, schema=None):
    """A WriteStream: name 1, type 2, create_time 3, commit_time 4, table_schema 5. A time is a whole number of seconds."""
    message = payload(1, name.encode()) + number(2, kind)
    message += payload(3, number(1, created)) if created else b""
    message += payload(4, number(1, committed)) if committed else b""
    return message + (payload(5, schema) if schema else b"")


# ---- frames (RFC 9113 section 4.1)

PREFACE = b"PRI * HTTP/2.0\r\n\r\nSM\r\n\r\n"
DATA, HEADERS, RST_STREAM, SETTINGS, PING, GOAWAY, WINDOW_UPDATE, CONTINUATION = 0, 1, 3, 4, 6, 7, 8, 9
END_STREAM, ACK, END_HEADERS = 1, 1, 4


def frame(kind, flags, stream, data=b""):
    return len(data).to_bytes(3, "big") + bytes([kind, flags]) + stream.to_bytes(4, "big") + data


def settings(*pairs):
    return frame(SETTINGS, 0, 0, b"".join(name.to_bytes(2, "big") + value.to_bytes(4, "big") for name, value in pairs))


def window(stream, increment):
    return frame(WINDOW_UPDATE, 0, stream, increment.to_bytes(4, "big"))


def reset(stream, code):
    return frame(RST_STREAM, 0, stream, code.to_bytes(4, "big"))


def goaway(last, code):
    return frame(GOAWAY, 0, 0, last.to_bytes(4, "big") + code.to_bytes(4, "big"))


# ---- header blocks (RFC 7541)

# The entries of the static table that are used here, and one text in the Huffman code (section C.4.1).
STATIC = {
    (":authority", ""): 1, (":method", "GET"): 2, (":method", "POST"): 3, (":path", "/"): 4, (":scheme", "http"): 6,
    (":status", "200"): 8, ("content-type", ""): 31, ("user-agent", ""): 58,
}
NAMES = {name: index for (name, _), index in reversed(STATIC.items())}
HUFFMAN = {"www.example.com": bytes.fromhex("f1e3c2e5f23a6ba0ab90f4ff")}


def integer(first, prefix, n):
    """An integer in the low bits of its first byte and the bytes behind (section 5.1)."""
    most = 2**prefix - 1
    if n < most:
        return bytes([first + n])
    return bytes([first + most]) + varint(n - most)


def plain(text):
    return integer(0, 7, len(text)) + text.encode()


class ClientFields:
    """Blocks as a client spells them: each field that the static table hasn't is added to the dynamic one."""

    def __init__(self):
        self.newest_first = []

    def field(self, name, value):
        if (name, value) in STATIC:
            return integer(0x80, 7, STATIC[name, value])
        if (name, value) in self.newest_first:
            return integer(0x80, 7, 62 + self.newest_first.index((name, value)))
        self.newest_first.insert(0, (name, value))
        spelled = HUFFMAN.get(value)
        text = integer(0x80, 7, len(spelled)) + spelled if spelled else plain(value)
        return integer(0x40, 6, NAMES.get(name, 0)) + (b"" if name in NAMES else plain(name)) + text

    def block(self, fields):
        return b"".join(self.field(name, value) for name, value in fields)


def server_block(*fields):
    """A block as the server spells it: by the static table alone, without indexing and without Huffman."""
    spelled = b""
    for name, value in fields:
        if (name, value) in STATIC:
            spelled += integer(0x80, 7, STATIC[name, value])
        else:
            spelled += integer(0, 4, NAMES.get(name, 0)) + (b"" if name in NAMES else plain(name)) + plain(value)
    return spelled
