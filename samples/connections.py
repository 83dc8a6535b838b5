"""Whole connections of a usual client of gRPC, and what they are answered.

What is written of one frame stands before what is written of the next. The frames on different streams, and control
frames beside them, are put in some order here; samples/compare doesn't ask for it where a sample has NAME.streams."""
from wire import (
    ACK, DATA, END_HEADERS, END_STREAM, HEADERS, PING, PREFACE, SETTINGS, ClientFields, accepted, append, frame, framed,
    goaway, number, payload, refused, reset, server_block, settings, table_schema, window, write_stream)

SERVICE = "/google.cloud.bigquery.storage.v1.BigQueryWrite/"
# At most 100 streams, and header lists of 16,384.
SERVER_SETTINGS = settings((3, 100), (6, 16_384))
COMMITTED, PENDING, BUFFERED = 1, 2, 3
NULLABLE, REQUIRED = 1, 2
REFUSED_STREAM, CANCEL = 7, 8


class Connection:
    """The bytes of a client, and beside them what is answered."""

    def __init__(self, *pairs):
        # The client's settings, its larger window, and its answer to the server's settings.
        self.input = PREFACE + settings(*pairs) + window(0, 983_041) + frame(SETTINGS, ACK, 0)
        self.output = SERVER_SETTINGS + frame(SETTINGS, ACK, 0)
        self.fields = ClientFields()
        self.last = -1
        self.has_answered = False

    # ---- the client

    def open(self, method, ends=False, http_method="POST", content_type="application/grpc", te="te"):
        self.last += 2
        path = method if method.startswith("/") else SERVICE + method
        block = self.fields.block([
            (":method", http_method), (":scheme", "http"), (":path", path), (":authority", "www.example.com"),
            ("content-type", content_type), (te, "trailers"), ("grpc-accept-encoding", "identity, deflate, gzip"),
            ("user-agent", "grpc-python/1.51.1 grpc-c/29.0.0 (linux; chttp2)"), ("grpc-timeout", "60S")])
        self.input += frame(HEADERS, END_HEADERS + (END_STREAM if ends else 0), self.last, block)
        return self.last

    def send(self, data, ends=False, is_taken=True):
        """DATA on the last stream, whose octets are given back: to the stream where more may come."""
        self.input += frame(DATA, END_STREAM if ends else 0, self.last, data)
        if data:
            self.output += window(0, len(data))
        if data and is_taken and not ends:
            self.output += window(self.last, len(data))

    # ---- the server, on the last stream

    def block(self, *fields):
        """The first block of a connection sets the size of the dynamic table to 0."""
        first = b"" if self.has_answered else b"\x20"
        self.has_answered = True
        return first + server_block(*fields)

    def head(self):
        block = self.block((":status", "200"), ("content-type", "application/grpc"))
        self.output += frame(HEADERS, END_HEADERS, self.last, block)

    def reply(self, *messages):
        self.output += frame(DATA, 0, self.last, framed(*messages))

    def end(self, code=0, text=None, is_reset=False):
        """The status; and a reset where the client hasn't ended."""
        message = () if text is None else (("grpc-message", text),)
        block = self.block(("grpc-status", str(code)), *message)
        self.output += frame(HEADERS, END_HEADERS + END_STREAM, self.last, block)
        if is_reset:
            self.output += reset(self.last, 0)

    def only_status(self, status):
        self.output += frame(HEADERS, END_HEADERS + END_STREAM, self.last, self.block((":status", status)))

    # ---- calls

    def call(self, method, request, reply):
        """A call of one message, and its stream."""
        self.open(method)
        self.send(framed(request), ends=True)
        self.head()
        self.reply(reply)
        self.end()
        return self.last

    def failing(self, method, data, code, text):
        self.open(method)
        self.send(data, ends=True)
        self.head()
        self.end(code, text)

    def appends(self, *pairs):
        """An AppendRows call of these requests, each with its response."""
        self.open("AppendRows")
        for place, (request, response) in enumerate(pairs):
            self.send(framed(request))
            if not place:
                self.head()
            self.reply(response)
        self.send(b"", ends=True)
        self.end()


def name_request(name):
    return payload(1, name.encode())


def create_request(table, kind):
    """A CreateWriteStreamRequest: parent 1, write_stream 2 {type 2}."""
    return payload(1, table.encode()) + payload(2, number(2, kind))


def flush_request(name, offset=None):
    """A FlushRowsRequest: write_stream 1, offset 2 {value 1}."""
    place = payload(2, number(1, offset) if offset else b"") if offset is not None else b""
    return payload(1, name.encode()) + place


def commit_request(table, *names):
    """A BatchCommitWriteStreamsRequest: parent 1, write_streams 2."""
    return payload(1, table.encode()) + b"".join(payload(2, name.encode()) for name in names)


def stream_errors(code, text, *names):
    """A BatchCommitWriteStreamsResponse: stream_errors 2 {code 1, entity 2, error_message 3}."""
    return b"".join(payload(2, number(1, code) + payload(2, name.encode()) + payload(3, text.encode())) for name in names)


def without_calls(sample, pipe):
    shortest = PREFACE + settings() + frame(PING, 0, 0, b"\1\2\3\4\5\6\7\x08")
    answers = SERVER_SETTINGS + frame(SETTINGS, ACK, 0) + frame(PING, ACK, 0, b"\1\2\3\4\5\6\7\x08")
    sample("shortest-connection", shortest, answers, 0, pipe)
    sample("empty-connection", b"", SERVER_SETTINGS, 0, pipe)
    sample("cut-preface", PREFACE[:10], SERVER_SETTINGS, 6, pipe)
    sample("broken-preface", PREFACE[:4] + b"\0", SERVER_SETTINGS + goaway(0, 1), 5, pipe)
    sample("no-table", shortest, b"", 2, ("pipe",))


def one_method(sample, pipe, table, fields, apple, pear):
    default = table + "/streams/_default"
    names = [f"{table}/streams/s{n}" for n in range(1, 4)]
    string, int64, boolean, date = 1, 2, 6, 8
    schema = table_schema(("id", int64, REQUIRED), ("name", string, NULLABLE), ("ripe", boolean, NULLABLE),
                          ("picked", date, NULLABLE))

    def create(c, kind, number, second):
        """The times that are written here stand for any that are in their order: see samples/compare."""
        committed = second if kind == COMMITTED else None
        reply = write_stream(f"{table}/streams/s{number}", kind, second, committed, schema)
        return c.call("CreateWriteStream", create_request(table, kind), reply)

    c = Connection((2, 0), (4, 65_535))
    created = [create(c, kind, kind, kind) for kind in (COMMITTED, PENDING, BUFFERED)]
    sample("create-streams", c.input, c.output, 0, pipe, {stream: (3, 4) for stream in created})

    # The basic view, and the full one: view 3.
    c = Connection()
    c.call("GetWriteStream", name_request(default), write_stream(default, COMMITTED))
    c.call("GetWriteStream", name_request(default) + number(3, 2), write_stream(default, COMMITTED, schema=schema))
    sample("get-stream", c.input, c.output, 0, pipe, {})

    # Two appends to the default stream; only the first names it and the type of the rows.
    c = Connection()
    c.appends((append([apple, pear], stream=default, fields=fields), accepted(None, default)),
              (append([pear]), accepted(None)),
              (append([pear], 3), refused(3, "offset on default stream")))
    sample("append-rows", c.input, c.output, 0, pipe, {})

    # A row once more, as after a lost answer; and behind the end.
    c = Connection()
    times = {create(c, COMMITTED, 1, 1): (3, 4)}
    c.appends((append([apple], 0, names[0], fields), accepted(0, names[0])),
              (append([apple], 0), refused(6, "offset already written")))
    c.call("FinalizeWriteStream", name_request(names[0]), number(1, 1))
    c.appends((append([apple], 0, names[0], fields), refused(6, "offset already written", names[0])),
              (append([apple], 1), refused(9, "stream is finalised")),
              (append([apple], 2), refused(11, "offset past the end")))
    c.call("FinalizeWriteStream", name_request(names[0]), number(1, 1))
    sample("finalize-stream", c.input, c.output, 0, pipe, times)

    c = Connection()
    times = {create(c, BUFFERED, 1, 1): (3, 4)}
    c.appends((append([apple] * 5, 0, names[0], fields), accepted(0, names[0])))
    for offset, flushed in ((2, 2), (1, 2), (4, 4)):
        c.call("FlushRows", flush_request(names[0], offset), number(1, flushed))
    c.failing("FlushRows", framed(flush_request(names[0], 5)), 11, "offset past the end")
    c.failing("FlushRows", framed(flush_request(names[0])), 3, "no offset")
    sample("flush-rows", c.input, c.output, 0, pipe, times)

    c = Connection()
    times = {create(c, PENDING, n, n): (3, 4) for n in (1, 2, 3)}
    for name in names:
        c.appends((append([apple], 0, name, fields), accepted(0, name)))
    for name in names[:2]:
        c.call("FinalizeWriteStream", name_request(name), number(1, 1))
    method = "BatchCommitWriteStreams"
    c.call(method, commit_request(table, *names), stream_errors(5, "stream not finalised", names[2]))
    times[c.call(method, commit_request(table, *names[:2]), payload(1, number(1, 4)))] = (1,)
    times[c.call("GetWriteStream", name_request(names[1]), write_stream(names[1], PENDING, 2, 4))] = (3, 4)
    c.call(method, commit_request(table, *names[:2]), stream_errors(2, "stream already committed", *names[:2]))
    sample("commit-streams", c.input, c.output, 0, pipe, times)


def with_errors(sample, pipe, table, fields, apple, pear):
    default = table + "/streams/_default"
    missing = table + "/streams/s7"
    get = framed(name_request(default))
    c = Connection()
    # No such method: it is answered before its message comes, which is then passed over.
    c.open("AppendRow")
    c.head()
    c.end(12, "unknown method", is_reset=True)
    c.send(get, ends=True, is_taken=False)
    c.open("GetWriteStream", ends=True, content_type="application/json")
    c.only_status("415")
    c.open("GetWriteStream", ends=True, http_method="GET")
    c.only_status("405")
    # A field's name in upper case.
    c.open("GetWriteStream", ends=True, te="Te")
    c.output += reset(c.last, 1)
    c.failing("GetWriteStream", framed(name_request(missing)), 5, "no such write stream")
    c.failing("GetWriteStream", framed(b"\x0b"), 3, "malformed message at 0")
    c.failing("GetWriteStream", get + get, 3, "one message wanted")
    c.failing("AppendRows", b"\0\0\0", 3, "message cut short")
    # An append to a stream that isn't there, rows that are refused, and a compressed message, which ends the call.
    c.open("AppendRows")
    c.send(framed(append([apple], stream=missing, fields=fields)))
    c.head()
    c.reply(refused(5, "no such write stream", missing))
    c.send(framed(append([apple], stream=table)))
    c.reply(refused(3, "bad resource name", table))
    c.send(b"\1\0\0\0\0")
    c.end(13, "compressed message", is_reset=True)
    # A message that is too long by a byte.
    c.open("AppendRows")
    c.send(b"\0" + (10_485_761).to_bytes(4, "big"))
    c.head()
    c.end(8, "message too long", is_reset=True)
    # A call that the client gives up.
    c.open("AppendRows")
    c.send(framed(append([apple], stream=default, fields=fields)))
    c.head()
    c.reply(accepted(None, default))
    c.input += reset(c.last, CANCEL)
    c.call("GetWriteStream", name_request(default), write_stream(default, COMMITTED))
    sample("mixed-errors", c.input, c.output, 0, pipe, {})


def ends(sample, pipe, table):
    default = table + "/streams/_default"
    reply = write_stream(default, COMMITTED)

    def one_call(*pairs):
        c = Connection(*pairs)
        c.call("GetWriteStream", name_request(default), reply)
        return c

    # A request on an even stream, which is the server's.
    c = one_call()
    c.input += frame(HEADERS, END_HEADERS + END_STREAM, 2, c.fields.block([(":method", "POST")]))
    sample("broken-rule", c.input, c.output + goaway(1, 1), 5, pipe, {})
    # The input ends inside a frame.
    c = one_call()
    c.input += frame(PING, 0, 0, b"12345678")[:-1]
    sample("cut-frame", c.input, c.output, 6, pipe, {})
    # The client takes ten octets of a stream until it says more.
    c = one_call((4, 10))
    c.input += window(c.last, len(framed(reply)) - 10)
    sample("small-window", c.input, c.output, 0, pipe, {})
    # A hundred calls live, and one more, which is refused.
    c = Connection()
    for _ in range(101):
        c.open("AppendRows")
    c.output += reset(c.last, REFUSED_STREAM)
    sample("too-many-streams", c.input, c.output, 0, pipe, {})


def make(sample, spec, fields, apple, pear):
    """The samples, each by a call with its name, input, output, status, words and times."""
    pipe = ("pipe", "--table", spec)
    table = spec.split("=")[0]
    without_calls(sample, pipe)
    one_method(sample, pipe, table, fields, apple, pear)
    with_errors(sample, pipe, table, fields, apple, pear)
    ends(sample, pipe, table)
