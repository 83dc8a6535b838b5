"""What a stock client of gRPC gets from the read service, test by test, each over a connection and tables of its own. Rows
are decoded by the avro package.

    tests/clients/read.py pipe|serve PROGRAM [TITLE..]

Codes are those of gRPC, names and numbers those of the API; what is this server's own is in docs/ANSWERS.md."""
import concurrent.futures
import struct
import subprocess
import sys
import time

from connections import TOP

from google.protobuf import descriptor_pb2, timestamp_pb2
from read_client import SERVICE, ReadClient, rows_of, session_request, storage, stream as streams
from write_client import Fruit, WriteStream
import write
from write import (BUFFERED, DEFAULT, EXHAUSTED, INVALID, NOT_FOUND, OTHER, OTHER_SPEC, PAST, PENDING, SPEC, TABLE,
                   UNIMPLEMENTED, Appends, Writer, accepted, append_once, commit, create, finalize, flush, refused, same)

TESTS = []
SESSION = "projects/shop/locations/local/sessions/"
SIX_HOURS = 21_600
ALL_KINDS = "projects/shop/datasets/stock/tables/kinds"
ALL_KINDS_SPEC = ALL_KINDS + "=i:INT64,b:BOOL,s:STRING,y:BYTES,d:DATE,t:TIMESTAMP"


def test(title, *specs):
    def add(function):
        TESTS.append((title, specs or (SPEC,), function))
        return function
    return add


# ---- what is asked

def fill(c, ids, name=None):
    accepted("rows", append_once(c.client, [Fruit(id=n, name=name) if name else Fruit(id=n) for n in ids]), None, DEFAULT)


def open_session(c, *given, table=TABLE, **words):
    return ReadClient(c.channel).create_read_session(session_request(table, *given, **words), timeout=20)


def responses(c, name, offset=0):
    request = storage.ReadRowsRequest(read_stream=name, offset=offset)
    return list(ReadClient(c.channel).read_rows(request, timeout=20))


def read(c, name, offset=0):
    return list(rows_of(responses(c, name, offset)))


def ids(c, name, offset=0):
    return [row["id"] for row in read(c, name, offset)]


def not_read(what, code, text, c, name, offset=0):
    refused(what, code, text, lambda request, timeout: list(ReadClient(c.channel).read_rows(request, timeout=timeout)),
            storage.ReadRowsRequest(read_stream=name, offset=offset))


def split(c, name, fraction=None):
    """The names of both children, or nothing. A fraction is a field that the examples' messages leave out."""
    request = storage.SplitReadStreamRequest(name=name)
    if fraction is not None:
        request.MergeFromString(b"\x11" + struct.pack("<d", fraction))
    response = ReadClient(c.channel).split_read_stream(request, timeout=20)
    same("both or none", response.HasField("primary_stream"), response.HasField("remainder_stream"))
    return [response.primary_stream.name, response.remainder_stream.name] if response.HasField("primary_stream") else []


def pause():
    """A time that is well behind what was done before, and before what is done then."""
    time.sleep(0.02)
    then = time.time()
    time.sleep(0.02)
    return then


def moment(seconds):
    stamp = timestamp_pb2.Timestamp()
    stamp.FromMicroseconds(int(seconds * 1e6))
    return stamp


# ---- sessions

@test("a session of a whole table")
def whole(c):
    fill(c, range(3), "pear")
    start = time.time()
    session = open_session(c)
    expires = session.expire_time.seconds + session.expire_time.nanos / 1e9
    # The clocks of two processes, and a second where one is set.
    if not start - 1 <= expires - SIX_HOURS <= time.time() + 1:
        raise AssertionError(f"expires at {expires}, begun at {start}")
    wanted = streams.ReadSession(
        name=SESSION + "t0-1", expire_time=session.expire_time, data_format=streams.AVRO, table=TABLE,
        streams=[streams.ReadStream(name=f"{SESSION}t0-1/streams/{n}") for n in range(3)])
    wanted.avro_schema.schema = (
        '{"type":"record","name":"__root__","fields":[{"name":"id","type":"long"},{"name":"name","type":["null","string"]},'
        '{"name":"ripe","type":["null","boolean"]},{"name":"picked","type":["null",{"type":"int","logicalType":"date"}]}]}')
    same("the session", session, wanted)
    rows = [row for part in session.streams for row in read(c, part.name)]
    same("its rows", rows, [{"id": n, "name": "pear", "ripe": None, "picked": None} for n in range(3)])
    same("the next session", open_session(c).name, SESSION + "t0-2")
    return {TABLE: (3, 3)}


@test("a restriction, chosen columns and a split")
def restricted(c):
    fill(c, range(1, 11))
    session = open_session(c, "id > 4", ["ID"], streams=2)
    one, other = [part.name for part in session.streams]
    same("the schema", session.avro_schema.schema,
         '{"type":"record","name":"__root__","fields":[{"name":"id","type":"long"}]}')
    same("what was asked isn't told", session.HasField("read_options"), False)
    fill(c, [11])
    left, right = split(c, other)
    same("the children", [left, right], [f"{SESSION}t0-1/streams/{n}" for n in (2, 3)])
    same("the parts", [ids(c, name) for name in (one, left, right)], [[5], [6, 7], [8, 9, 10]])
    same("the node that was split", ids(c, other), [6, 7, 8, 9, 10])
    same("split again", [split(c, other), split(c, other, 0.9)], [[left, right]] * 2)
    same("read on", [ids(c, other, 4), ids(c, other, 5), ids(c, one, 1)], [[10], [], []])
    not_read("past the end", PAST, "offset past the end", c, other, 6)
    not_read("past the end", PAST, "offset past the end", c, one, 2)
    not_read("below 0", INVALID, "negative offset", c, one, -1)
    return {TABLE: (4, 11)}


@test("splits down to one row")
def split_down(c):
    fill(c, range(5))
    open_nodes = [part.name for part in open_session(c, streams=1).streams]
    parts = []
    while open_nodes:
        name = open_nodes.pop(0)
        children = split(c, name)
        open_nodes = children + open_nodes
        if not children:
            parts.append(ids(c, name))
    same("the leaves", parts, [[n] for n in range(5)])


@test("an empty table")
def empty(c):
    session = open_session(c)
    same("one stream", [part.name for part in session.streams], [SESSION + "t0-1/streams/0"])
    same("no response", responses(c, session.streams[0].name), [])
    not_read("past the end", PAST, "offset past the end", c, session.streams[0].name, 1)
    same("no split", split(c, session.streams[0].name), [])
    return {TABLE: (1, 0)}


@test("how many streams")
def counts(c):
    fill(c, range(500))
    for asked, got in ((0, 4), (1, 1), (7, 7), (100, 100), (101, 100), (2**31 - 1, 100)):
        session = open_session(c, streams=asked)
        same(f"{asked} streams", [ids(c, part.name) for part in session.streams],
             [list(range(n * 500 // got, (n + 1) * 500 // got)) for n in range(got)])


@test("the most read streams of a session")
def most_streams(c):
    for n in range(3):
        fill(c, range(1000 * n, 1000 * n + 1000))
    first = open_session(c, streams=1).streams[0].name
    leaves = [first]
    for n in range(2047):
        leaves += split(c, leaves[n])
    same("numbers", [name.rsplit("/", 1)[1] for name in leaves], [str(n) for n in range(4095)])
    same("a further one", len(leaves[2047:]), 2048)
    two = next(name for name in leaves[2047:] if len(ids(c, name)) == 2)
    refused("two more", EXHAUSTED, "too many read streams", ReadClient(c.channel).split_read_stream,
            storage.SplitReadStreamRequest(name=two))
    one = next(name for name in leaves[2047:] if len(ids(c, name)) == 1)
    same("one row", split(c, one), [])
    same("split before", split(c, first), leaves[1:3])
    return {TABLE: (3 + 1 + 2047, 3000)}


@test("rows that aren't visible")
def not_visible(c):
    buffer, pending = create(c.client, BUFFERED).name, create(c.client, PENDING).name
    accepted("rows", append_once(c.client, [Fruit(id=n) for n in range(5)], 0, buffer), 0, buffer)
    accepted("rows", append_once(c.client, [Fruit(id=n) for n in range(10, 13)], 0, pending), 0, pending)

    def seen():
        return [n for part in open_session(c).streams for n in ids(c, part.name)]

    same("none at first", seen(), [])
    flush(c.client, buffer, 2)
    same("three are flushed", seen(), [0, 1, 2])
    finalize(c.client, pending)
    same("finalised", seen(), [0, 1, 2])
    commit(c.client, pending)
    same("committed", seen(), [0, 1, 2, 10, 11, 12])
    flush(c.client, buffer, 4)
    same("all", seen(), [0, 1, 2, 10, 11, 12, 3, 4])


@test("snapshots")
def snapshots(c):
    buffer = create(c.client, BUFFERED).name
    accepted("a row", append_once(c.client, [Fruit(id=3)], 0, buffer), 0, buffer)
    times = [pause()]
    for step in (lambda: fill(c, [1]), lambda: fill(c, [2]), lambda: flush(c.client, buffer, 0)):
        step()
        times.append(pause())

    def seen(snapshot):
        return [n for part in open_session(c, snapshot=snapshot).streams for n in ids(c, part.name)]

    same("each moment", [seen(moment(t)) for t in times], [[], [1], [1, 2], [1, 2, 3]])
    same("one that is to come", seen(moment(time.time() + 1000)), [1, 2, 3])
    same("the first moment of all", seen(timestamp_pb2.Timestamp(seconds=-62_135_596_800)), [])
    for seconds, nanos in ((-62_135_596_801, 0), (253_402_300_800, 0), (0, -1), (0, 1_000_000_000)):
        refused(f"{seconds} {nanos}", INVALID, "bad snapshot time", ReadClient(c.channel).create_read_session,
                session_request(TABLE, snapshot=timestamp_pb2.Timestamp(seconds=seconds, nanos=nanos)))


# ---- rows

@test("every kind of column", ALL_KINDS_SPEC)
def kinds(c):
    kind = descriptor_pb2.FieldDescriptorProto
    schema = Writer(("i", kind.TYPE_INT64), ("b", kind.TYPE_BOOL), ("s", kind.TYPE_STRING), ("y", kind.TYPE_BYTES),
                    ("d", kind.TYPE_INT32), ("t", kind.TYPE_INT64))
    rows = [b"", b"\x08" + b"\xff" * 9 + b"\x01" + b"\x10\x01\x1a\x02\xc3\xa9\x22\x02\x00\xff\x28\x01\x30\x02",
            b"\x08\x00\x10\x00\x1a\x00\x22\x00\x28\x00\x30\x00"]
    appends = Appends(c.client)
    there = ALL_KINDS + "/streams/_default"
    accepted("rows", appends.ask(rows, stream=there, schema=schema), None, there)
    appends.ends_well()
    names = "ibsydt"
    wanted = [dict.fromkeys(names), dict(zip(names, (-1, True, "é", b"\x00\xff", 1, 2))),
              dict(zip(names, (0, False, "", b"", 0, 0)))]
    session = open_session(c, table=ALL_KINDS, streams=1)
    same("rows", read(c, session.streams[0].name), wanted)
    for restriction, kept in (("i < 0", [1]), ("b", [1]), ("NOT b", [2]), ("s IN ('', 'é')", [1, 2]), ("y IS NULL", [0]),
                              ("d = '1970-01-02'", [1]), ("t >= TIMESTAMP '1970-01-01 00:00:00 UTC'", [1, 2]),
                              ("i = 0 OR i IS NULL", [0, 2]), ("NOT (i > 5)", [1, 2]), ("", [0, 1, 2])):
        session = open_session(c, restriction, table=ALL_KINDS, streams=1)
        same(restriction, read(c, session.streams[0].name), [wanted[n] for n in kept])


@test("5,000 rows of one stream")
def many(c):
    for n in range(5):
        fill(c, range(1000 * n, 1000 * n + 1000))
    session = open_session(c, "id != 17", ["id"], streams=1)
    told = responses(c, session.streams[0].name)
    same("at most 1,024 rows", max(response.row_count for response in told) <= 1024, True)
    same("the schema", [response.HasField("avro_schema") for response in told], [True] + [False] * (len(told) - 1))
    same("rows", [row["id"] for row in rows_of(told)], [n for n in range(5000) if n != 17])
    same("from an offset on", ids(c, session.streams[0].name, 4000), list(range(4001, 5000)))


@test("columns in the table's order, each once")
def order(c):
    fill(c, [7], "fig")
    for names in (["name", "ID", "Name", "id"], ["id", "name"]):
        session = open_session(c, "ripe IS NULL", names)
        same(f"{names}", [list(row.items()) for row in read(c, session.streams[0].name)], [[("id", 7), ("name", "fig")]])


@test("long rows")
def long_rows(c):
    texts = ["x" * 600_000, "y" * 600_000, "z" * 3_000_000, "", "w"]
    for n, text in enumerate(texts):
        fill(c, [n], text)
    session = open_session(c, streams=1)
    told = responses(c, session.streams[0].name)
    same("rows of each response", [response.row_count for response in told], [1, 1, 1, 2])
    same("rows", [row["name"] or "" for row in rows_of(told)], texts)


@test("a read that is broken off")
def broken_off(c):
    for n in range(8):
        fill(c, [n], "x" * 400_000)
    name = open_session(c, streams=1).streams[0].name
    for _ in range(3):
        call = ReadClient(c.channel).read_rows(storage.ReadRowsRequest(read_stream=name), timeout=20)
        first = list(rows_of([next(call)]))
        call.cancel()
        same("read on", [row["id"] for row in first] + ids(c, name, len(first)), list(range(8)))


@test("several streams at once, one of them split meanwhile")
def at_once(c):
    for n in range(4):
        fill(c, range(1000 * n, 1000 * n + 1000))
    session = open_session(c, streams=3)
    first, *others = [part.name for part in session.streams]
    with concurrent.futures.ThreadPoolExecutor() as pool:
        whole = pool.submit(ids, c, first)
        children = pool.submit(split, c, first).result()
        parts = list(pool.map(lambda name: ids(c, name), children + others))
    same("the children have its rows", parts[0] + parts[1], whole.result())
    same("all rows", [n for part in parts for n in part], list(range(4000)))


@test("sessions of several tables", SPEC, OTHER_SPEC)
def several(c):
    fill(c, [1, 2])
    other = open_session(c, table=OTHER)
    same("the session of the other table", other.name, SESSION + "t1-1")
    same("that of the first", open_session(c, streams=1).name, SESSION + "t0-1")
    same("no rows there", read(c, other.streams[0].name), [])
    anywhere = "projects/x/locations/local/sessions/t0-1/streams/"
    same("found in any project", ids(c, anywhere + "0"), [1, 2])
    same("split in any project", split(c, anywhere + "0"), [anywhere + "1", anywhere + "2"])
    same("and read", [ids(c, SESSION + "t0-1/streams/1"), ids(c, anywhere + "2")], [[1], [2]])
    request = session_request(TABLE)
    request.parent = "projects/x"
    same("begun in any project", ReadClient(c.channel).create_read_session(request, timeout=20).name,
         "projects/x/locations/local/sessions/t0-2")
    return {TABLE: (4, 2), OTHER: (1, 0)}


# ---- refusals

@test("sessions that can't be begun")
def not_begun(c):
    method = ReadClient(c.channel).create_read_session

    def asked(change, *given, **words):
        request = session_request(*(given or (TABLE,)), **words)
        change(request)
        return request

    def parent(text):
        return lambda request: setattr(request, "parent", text)

    def form(number):
        return lambda request: setattr(request.read_session, "data_format", number)

    def nothing(request):
        pass

    refused("a parent", INVALID, "bad resource name", method, asked(parent("projects/a/b"), TABLE + "s"))
    refused("a table", INVALID, "bad resource name", method, asked(nothing, "projects/shop/tables/fruit"))
    refused("no such table", NOT_FOUND, "no such table", method, asked(form(0), TABLE + "s"))
    refused("no format", INVALID, "bad data format", method, asked(form(0), streams=-1))
    refused("Arrow", UNIMPLEMENTED, "unsupported field 3", method, asked(form(2)))
    refused("a count", INVALID, "negative stream count", method, asked(nothing, columns=["taste"], streams=-1))
    refused("a column", INVALID, "unknown column: taste", method, asked(nothing, TABLE, "id >", ["id", "taste"]))
    refused("a long name", INVALID, "unknown column: " + 128 * "q", method, asked(nothing, columns=[129 * "q"]))
    refused("a restriction", INVALID, "restriction syntax at 4", method, asked(nothing, TABLE, "id >"))
    refused("its column", INVALID, "unknown column: taste", method, asked(nothing, TABLE, "taste = 1"))
    refused("its type", INVALID, "restriction is ill typed: name", method, asked(nothing, TABLE, "name = 1"))
    refused("its length", INVALID, "restriction too long", method, asked(nothing, TABLE, " " * 16_385))
    sampled = session_request(TABLE).SerializeToString() + b"\x12\x0b\x42\x09\x29" + b"\x00" * 8
    refused("a sample", UNIMPLEMENTED, "unsupported field 5", c.channel.unary_unary(SERVICE + "CreateReadSession"), sampled)
    return {TABLE: (0, 0)}


@test("streams that can't be read or split")
def not_there(c):
    fill(c, [1, 2])
    open_session(c, streams=1)
    method = ReadClient(c.channel).split_read_stream
    for name in ("", "projects/shop", SESSION + "t0-1", SESSION + "t0-1/streams/", SESSION + "t0-1/streams/a b"):
        not_read(repr(name), INVALID, "bad resource name", c, name, -1)
        refused(repr(name), INVALID, "bad resource name", method, storage.SplitReadStreamRequest(name=name))
    for name in ("t0-1/streams/1", "t0-2/streams/0", "t1-1/streams/0", "t0-1/streams/00", "t0-01/streams/0", "x/streams/0",
                 "t0-0/streams/0"):
        name = SESSION + name
        not_read(name, NOT_FOUND, "no such read stream", c, name, -1)
        refused(name, NOT_FOUND, "no such read stream", method, storage.SplitReadStreamRequest(name=name))
    elsewhere = "projects/shop/locations/us/sessions/t0-1/streams/0"
    not_read("another location", NOT_FOUND, "no such read stream", c, elsewhere)
    refused("a broken message", INVALID, "malformed message at 0", c.channel.unary_unary(SERVICE + "ReadRows"), b"\x0b")
    return {TABLE: (2, 2)}


@test("the reading client of the examples")
def example(c):
    c.channel.close()
    script = TOP / "examples" / "read.py"
    ran = subprocess.run([sys.executable, "-B", script, c.address, TABLE], capture_output=True, text=True, timeout=20)
    same("its status", (ran.returncode, ran.stderr), (0, ""))
    same("its lines", ran.stdout.splitlines(), [
        SESSION + "t0-1", "  stream 2: 0 apple,", "  stream 3: 1 pear,", "  stream 1: 2 quince, 4 fig,",
        "  the last one from its second row on: 4 fig,"])
    return {TABLE: (4, 6)}


if __name__ == "__main__":
    write.main(TESTS, __file__)
