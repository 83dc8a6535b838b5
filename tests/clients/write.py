"""What a stock client of gRPC gets from the write service, test by test, each over a connection and tables of its own.

    tests/clients/write.py pipe|serve PROGRAM [TITLE..]

Codes are those of gRPC, names and numbers those of the API; what is this server's own is in docs/ANSWERS.md."""
import queue
import subprocess
import sys
import threading
import time
import traceback

from connections import TOP, Connection

import grpc
from google.protobuf import descriptor_pb2
from write_client import SERVICE, Fruit, WriteStream, append_request, storage, stream as streams, table as tables

TABLE = "projects/shop/datasets/stock/tables/fruit"
SPEC = TABLE + "=id:INT64:REQUIRED,name:STRING,ripe:BOOL,picked:DATE"
OTHER = "projects/shop/datasets/stock/tables/names"
OTHER_SPEC = OTHER + "=NAME:BYTES"
DEFAULT = TABLE + "/streams/_default"
COMMITTED, PENDING, BUFFERED = WriteStream.COMMITTED, WriteStream.PENDING, WriteStream.BUFFERED
INVALID, NOT_FOUND, EXISTS, EXHAUSTED, PRECONDITION, PAST, UNIMPLEMENTED, INTERNAL = 3, 5, 6, 8, 9, 11, 12, 13
LONGEST = 10_485_760
APPLE, PEAR, PLUM = Fruit(id=1, name="apple", ripe=True, picked=20_000), Fruit(id=2, name="pear"), Fruit(id=-3)

TESTS = []


def test(title, *specs):
    def add(function):
        TESTS.append((title, specs or (SPEC,), function))
        return function
    return add


# ---- what is compared

def same(what, got, wanted):
    if got != wanted:
        raise AssertionError(f"{what}: {got!r}, not {wanted!r}")


def status_of(error):
    return error.code().value[0], error.details()


def refused(what, code, text, method, *given):
    """The method ends with this status and no response."""
    try:
        response = method(*given, timeout=20)
    except grpc.RpcError as error:
        same(what, status_of(error), (code, text))
    else:
        raise AssertionError(f"{what}: {response!r}, not status {code}")


def accepted(what, response, offset, stream=""):
    """Without an offset that is none in the response."""
    wanted = storage.AppendRowsResponse(write_stream=stream)
    wanted.append_result.SetInParent()
    if offset is not None:
        wanted.append_result.offset.value = offset
    same(what, response, wanted)


def declined(what, response, code, text, stream="", rows=()):
    """An error within the response; each of the rows is a place and a text."""
    wanted = storage.AppendRowsResponse(write_stream=stream)
    wanted.error.code, wanted.error.message = code, text
    for index, message in rows:
        wanted.row_errors.add(index=index, code=storage.RowError.FIELDS_ERROR, message=message)
    same(what, response, wanted)


# ---- what is asked

class Appends:
    """One AppendRows call that goes on."""

    def __init__(self, client, **words):
        self.requests = queue.SimpleQueue()
        self.call = client.append_rows(iter(self.requests.get, None), timeout=20, **words)

    def send(self, rows, **words):
        self.requests.put(append_request(rows, **words))

    def ask(self, rows, **words):
        self.send(rows, **words)
        return next(self.call)

    def end(self):
        """The status behind the client's end, and the responses that were still to come."""
        self.requests.put(None)
        more = []
        try:
            more.extend(self.call)
        except grpc.RpcError:
            pass
        return status_of(self.call), more

    def ends_well(self):
        same("the end of the call", self.end(), ((0, ""), []))


def create(client, kind, table=TABLE):
    return client.create_write_stream(
        storage.CreateWriteStreamRequest(parent=table, write_stream=WriteStream(type=kind)), timeout=20)


def get(client, name, view=streams.BASIC):
    return client.get_write_stream(storage.GetWriteStreamRequest(name=name, view=view), timeout=20)


def finalize_request(name):
    return storage.FinalizeWriteStreamRequest(name=name)


def finalize(client, name):
    return client.finalize_write_stream(finalize_request(name), timeout=20).row_count


def flush_request(name, offset=None):
    request = storage.FlushRowsRequest(write_stream=name)
    if offset is not None:
        request.offset.value = offset
    return request


def flush(client, name, offset):
    return client.flush_rows(flush_request(name, offset), timeout=20).offset


def commit_request(names, parent=TABLE):
    return storage.BatchCommitWriteStreamsRequest(parent=parent, write_streams=names)


def commit(client, *names):
    return client.batch_commit_write_streams(commit_request(names), timeout=20)


def append_once(client, rows, offset=None, stream=DEFAULT):
    """An append in a call of its own."""
    appends = Appends(client)
    response = appends.ask(rows, stream=stream, offset=offset, schema=Fruit)
    appends.ends_well()
    return response


def schema_of(*columns):
    schema = tables.TableSchema()
    for name, kind, mode in columns:
        schema.fields.add(name=name, type=kind, mode=mode)
    return schema


FIELD = tables.TableFieldSchema
SCHEMA = schema_of(("id", FIELD.INT64, FIELD.REQUIRED), ("name", FIELD.STRING, FIELD.NULLABLE),
                   ("ripe", FIELD.BOOL, FIELD.NULLABLE), ("picked", FIELD.DATE, FIELD.NULLABLE))


# ---- streams

@test("streams are created")
def creating(c):
    start = time.time()
    for number, kind in enumerate((COMMITTED, PENDING, BUFFERED, PENDING), 1):
        made = create(c.client, kind)
        moment = made.create_time.seconds + made.create_time.nanos / 1e9
        # The clocks of two processes, and a second where one is set.
        if not start - 1 <= moment <= time.time() + 1:
            raise AssertionError(f"created at {moment}, between {start} and {time.time()}")
        wanted = WriteStream(
            name=f"{TABLE}/streams/s{number}", type=kind, create_time=made.create_time, table_schema=SCHEMA)
        if kind == COMMITTED:
            wanted.commit_time.CopyFrom(made.create_time)
        same(f"stream {number}", made, wanted)
    return {TABLE: (4, 0)}


@test("streams that can't be created")
def not_creating(c):
    def request(parent, kind):
        return storage.CreateWriteStreamRequest(parent=parent, write_stream=WriteStream(type=kind))

    method = c.client.create_write_stream
    refused("no table's name", INVALID, "bad resource name", method, request("projects/shop", COMMITTED))
    refused("a stream's name", INVALID, "bad resource name", method, request(DEFAULT, COMMITTED))
    refused("another table", NOT_FOUND, "no such table", method, request(TABLE + "s", 0))
    refused("no type", INVALID, "bad stream type", method, request(TABLE, 0))
    refused("a type of no name", INVALID, "bad stream type", method, request(TABLE, 4))
    refused("no stream", INVALID, "bad stream type", method, storage.CreateWriteStreamRequest(parent=TABLE))
    return {TABLE: (0, 0)}


@test("streams are told")
def getting(c):
    same("the default stream", get(c.client, DEFAULT), WriteStream(name=DEFAULT, type=COMMITTED))
    for kind in (COMMITTED, PENDING, BUFFERED):
        made = create(c.client, kind)
        same("the full view", get(c.client, made.name, streams.FULL), made)
        made.ClearField("table_schema")
        same("the basic view", get(c.client, made.name), made)
        same("no view", get(c.client, made.name, 0), made)
    full = WriteStream(name=DEFAULT, type=COMMITTED, table_schema=SCHEMA)
    same("the default stream's full view", get(c.client, DEFAULT, streams.FULL), full)
    same("its other spelling", get(c.client, TABLE + "/_default").name, DEFAULT)


@test("streams that aren't there")
def not_getting(c):
    create(c.client, COMMITTED)
    for name in ("s2", "s0", "s01", "S1", "1"):
        request = storage.GetWriteStreamRequest(name=f"{TABLE}/streams/{name}")
        refused(name, NOT_FOUND, "no such write stream", c.client.get_write_stream, request)
    for name in ("", TABLE, TABLE + "/streams/", TABLE + "/streams/s1/x", TABLE + "/streams/a b"):
        request = storage.GetWriteStreamRequest(name=name)
        refused(repr(name), INVALID, "bad resource name", c.client.get_write_stream, request)
    request = storage.GetWriteStreamRequest(name=OTHER + "/streams/s1")
    refused("another table", NOT_FOUND, "no such table", c.client.get_write_stream, request)


# ---- appends

@test("a COMMITTED stream")
def committed(c):
    name = create(c.client, COMMITTED).name
    appends = Appends(c.client)
    accepted("two rows", appends.ask([APPLE, PEAR], stream=name, offset=0, schema=Fruit), 0, name)
    accepted("one at the end", appends.ask([PLUM]), 2)
    declined("the same again", appends.ask([APPLE, PEAR], offset=0), EXISTS, "offset already written")
    declined("below the end", appends.ask([APPLE], offset=2), EXISTS, "offset already written")
    declined("past the end", appends.ask([APPLE], offset=4), PAST, "offset past the end")
    declined("below 0", appends.ask([APPLE], offset=-1), INVALID, "negative offset")
    declined("no rows", appends.ask([], offset=9), INVALID, "no rows")
    accepted("the end", appends.ask([APPLE], offset=3, stream=name), 3, name)
    appends.ends_well()
    same("finalised", finalize(c.client, name), 4)
    again = append_once(c.client, [APPLE], 0, name)
    declined("a row again", again, EXISTS, "offset already written", name)
    declined("a row behind", append_once(c.client, [APPLE], 4, name), PRECONDITION, "stream is finalised", name)
    declined("a row anywhere", append_once(c.client, [APPLE], None, name), PRECONDITION, "stream is finalised", name)
    declined("a row past the end", append_once(c.client, [APPLE], 5, name), PAST, "offset past the end", name)
    same("finalised again", finalize(c.client, name), 4)
    return {TABLE: (5, 4)}


@test("the default stream")
def default(c):
    appends = Appends(c.client)
    accepted("rows", appends.ask([APPLE, PEAR], stream=DEFAULT, schema=Fruit), None, DEFAULT)
    accepted("rows without a name", appends.ask([PLUM]), None)
    declined("an offset", appends.ask([PLUM], offset=3), INVALID, "offset on default stream")
    declined("an offset below 0", appends.ask([PLUM], offset=-1), INVALID, "offset on default stream")
    name = TABLE + "/_default"
    accepted("the other spelling", appends.ask([PLUM], stream=name), None, name)
    appends.ends_well()
    refused("finalise", INVALID, "wrong stream type", c.client.finalize_write_stream, finalize_request(DEFAULT))
    refused("flush", INVALID, "wrong stream type", c.client.flush_rows, flush_request(DEFAULT, 0))
    return {TABLE: (3, 4)}


@test("a BUFFERED stream")
def buffered(c):
    name = create(c.client, BUFFERED).name
    accepted("five rows", append_once(c.client, [APPLE] * 5, 0, name), 0, name)
    same("flushed", [flush(c.client, name, offset) for offset in (2, 1, 4)], [2, 2, 4])
    method = c.client.flush_rows
    refused("past the end", PAST, "offset past the end", method, flush_request(name, 5))
    refused("no offset", INVALID, "no offset", method, flush_request(name))
    refused("below 0", INVALID, "negative offset", method, flush_request(name, -1))
    other = create(c.client, COMMITTED).name
    refused("a COMMITTED stream", INVALID, "wrong stream type", method, flush_request(other))
    refused("no such stream", NOT_FOUND, "no such write stream", method, flush_request(TABLE + "/streams/s3", 0))
    refused("no such table", NOT_FOUND, "no such table", method, flush_request(OTHER + "/streams/s1", 0))
    refused("no name", INVALID, "bad resource name", method, flush_request("", 0))
    accepted("another row", append_once(c.client, [PLUM], 5, name), 5, name)
    same("finalised", finalize(c.client, name), 6)
    same("flushed behind the end", flush(c.client, name, 5), 5)
    return {TABLE: (8, 6)}


@test("PENDING streams and their commit")
def pending(c):
    names = [create(c.client, PENDING).name for _ in range(3)]
    for name, rows in zip(names, ([APPLE, PEAR], [PLUM], [APPLE])):
        accepted(name, append_once(c.client, rows, 0, name), 0, name)
    same("finalised", [finalize(c.client, name) for name in names[:2]], [2, 1])
    failed = commit(c.client, *names)
    error = storage.StorageError
    wanted = storage.BatchCommitWriteStreamsResponse(stream_errors=[
        error(code=error.INVALID_STREAM_STATE, entity=names[2], error_message="stream not finalised")])
    same("one isn't finalised", failed, wanted)
    if get(c.client, names[0]).HasField("commit_time"):
        raise AssertionError("a stream was committed")
    done = commit(c.client, *names[:2])
    same("errors of a good commit", list(done.stream_errors), [])
    for name in names[:2]:
        told = get(c.client, name)
        same("the time of the commit", told.commit_time, done.commit_time)
        if told.create_time.ToNanoseconds() > told.commit_time.ToNanoseconds():
            raise AssertionError("committed before it was created")
    again = commit(c.client, names[1], names[0])
    same("once more", again, storage.BatchCommitWriteStreamsResponse(stream_errors=[
        error(code=error.STREAM_ALREADY_COMMITTED, entity=name, error_message="stream already committed")
        for name in (names[1], names[0])]))
    declined("a row behind the commit", append_once(c.client, [APPLE], None, names[0]), PRECONDITION,
             "stream is finalised", names[0])
    return {TABLE: (9, 3)}


@test("commits that are refused", SPEC, OTHER_SPEC)
def not_committing(c):
    one = create(c.client, PENDING).name
    buffer = create(c.client, BUFFERED).name
    missing = TABLE + "/streams/s01"
    error = storage.StorageError
    wanted = storage.BatchCommitWriteStreamsResponse(stream_errors=[
        error(code=error.INVALID_STREAM_TYPE, entity=DEFAULT, error_message="not a pending stream"),
        error(code=error.STREAM_NOT_FOUND, entity=missing, error_message="stream not found"),
        error(code=error.INVALID_STREAM_STATE, entity=one, error_message="stream not finalised"),
        error(code=error.INVALID_STREAM_TYPE, entity=buffer, error_message="not a pending stream")])
    same("each has its error", commit(c.client, DEFAULT, missing, one, buffer), wanted)
    method = c.client.batch_commit_write_streams
    refused("no parent", INVALID, "bad resource name", method, commit_request([one], ""))
    refused("a bad stream", INVALID, "bad resource name", method, commit_request([one, "s1"], TABLE + "s"))
    refused("no such table", NOT_FOUND, "no such table", method, commit_request([], TABLE + "s"))
    refused("no stream", INVALID, "no streams named", method, commit_request([]))
    other = OTHER + "/streams/s1"
    refused("another table's", INVALID, "stream of another table", method, commit_request([one, one, other]))
    refused("one twice", INVALID, "stream named twice", method, commit_request([one, buffer, one]))
    refused("a missing one twice", INVALID, "stream named twice", method, commit_request([missing, missing]))
    return {TABLE: (2, 0), OTHER: (0, 0)}


# ---- rows and their types

@test("rows that are refused")
def bad_rows(c):
    name = create(c.client, COMMITTED).name
    appends = Appends(c.client)
    bad = [b"\x0b", APPLE, b"\x08\x01\x12\x01\xff", Fruit(id=1, picked=3_000_000), b"\x12\x04plum"]
    texts = ((0, "malformed row"), (2, "bad text in column: name"), (3, "value out of range in column: picked"),
             (4, "no value in required column: id"))
    declined("four rows", appends.ask(bad, stream=name, offset=0, schema=Fruit), INVALID, "rows refused", name, texts)
    many = appends.ask([b""] * 150)
    declined("150 rows", many, INVALID, "rows refused", "", [(n, texts[3][1]) for n in range(100)])
    declined("before the offset", appends.ask([b""], offset=7), INVALID, "rows refused", "", [(0, texts[3][1])])
    days = [Fruit(id=2**63 - 1, picked=day) for day in (-719_162, 2_932_896)]
    accepted("none of them was kept", appends.ask(days, offset=0), 0)
    for day in (-719_163, 2_932_897):
        response = appends.ask([Fruit(id=1, picked=day)])
        declined("a day", response, INVALID, "rows refused", "", [(0, texts[2][1])])
    appends.ends_well()
    return {TABLE: (2, 2)}


class Writer:
    """A type of rows by its fields, each a name and a type, numbered from 1."""

    def __init__(self, *fields, label=descriptor_pb2.FieldDescriptorProto.LABEL_OPTIONAL):
        self.DESCRIPTOR = self
        self.made = descriptor_pb2.DescriptorProto(name="Row")
        for number, (name, kind) in enumerate(fields, 1):
            self.made.field.add(name=name, number=number, type=kind, label=label)

    def CopyToProto(self, into):
        into.CopyFrom(self.made)


@test("writer schemas")
def schemas(c):
    kind = descriptor_pb2.FieldDescriptorProto
    whole, text = ("id", kind.TYPE_INT64), ("name", kind.TYPE_STRING)
    appends = Appends(c.client)
    declined("none", appends.ask([APPLE], stream=DEFAULT), INVALID, "no writer schema", DEFAULT)
    declined("no field", appends.ask([APPLE], schema=Writer()), INVALID, "bad descriptor")
    declined("it is remembered", appends.ask([APPLE]), INVALID, "bad descriptor")
    twice = Writer(whole, ("ID", kind.TYPE_INT64))
    declined("a name twice", appends.ask([APPLE], schema=twice), INVALID, "bad descriptor")
    extra = Writer(("taste", kind.TYPE_STRING), ("id", kind.TYPE_STRING))
    declined("no such column", appends.ask([APPLE], schema=extra), INVALID, "field not in table: taste")
    declined("no number", appends.ask([APPLE], schema=Writer(("id", kind.TYPE_STRING))), INVALID,
             "field type does not fit: id")
    declined("a number of another kind", appends.ask([APPLE], schema=Writer(("ID", kind.TYPE_DOUBLE))), INVALID,
             "field type does not fit: ID")
    repeated = Writer(whole, label=kind.LABEL_REPEATED)
    declined("repeated", appends.ask([APPLE], schema=repeated), INVALID, "field type does not fit: id")
    declined("without the id", appends.ask([APPLE], schema=Writer(text)), INVALID, "required column missing: id")
    declined("also without rows", appends.ask([], schema=Writer(text)), INVALID, "required column missing: id")
    swapped = Writer(("Name", kind.TYPE_STRING), whole)
    accepted("other numbers and cases", appends.ask([b"\x0a\x04plum\x10\x07"], schema=swapped), None)
    accepted("as remembered", appends.ask([b"\x10\x08"]), None)
    appends.ends_well()
    return {TABLE: (2, 2)}


@test("write streams that a call names")
def names(c):
    appends = Appends(c.client)
    declined("none", appends.ask([APPLE], schema=Fruit), INVALID, "bad resource name")
    for name, code, text in (("fruit", INVALID, "bad resource name"),
                             (OTHER + "/streams/_default", NOT_FOUND, "no such table"),
                             (TABLE + "/streams/s7", NOT_FOUND, "no such write stream")):
        declined(name, appends.ask([APPLE], stream=name), code, text, name)
        declined("it is remembered", appends.ask([b"\x0b"]), code, text)
    name = create(c.client, PENDING).name
    accepted("one that is there", appends.ask([APPLE], stream=name), 0, name)
    appends.ends_well()
    appends = Appends(c.client)
    declined("a stream before a schema", appends.ask([APPLE], stream=TABLE + "/streams/s9"), NOT_FOUND,
             "no such write stream", TABLE + "/streams/s9")
    appends.ends_well()
    refused("finalise", NOT_FOUND, "no such write stream", c.client.finalize_write_stream,
            finalize_request(TABLE + "/streams/s9"))
    refused("finalise", NOT_FOUND, "no such table", c.client.finalize_write_stream, finalize_request(OTHER + "/_default"))
    refused("finalise", INVALID, "bad resource name", c.client.finalize_write_stream, finalize_request(TABLE))


@test("several tables in one call", SPEC, OTHER_SPEC)
def several(c):
    same("the first stream", create(c.client, COMMITTED).name, TABLE + "/streams/s1")
    same("each table has its own", create(c.client, COMMITTED, OTHER).name, OTHER + "/streams/s1")
    name = Writer(("name", descriptor_pb2.FieldDescriptorProto.TYPE_STRING))
    there = OTHER + "/_default"
    appends = Appends(c.client)
    declined("fruit to names", appends.ask([APPLE], stream=there, schema=Fruit), INVALID, "field not in table: id", there)
    accepted("the same to fruit", appends.ask([APPLE], stream=DEFAULT), None, DEFAULT)
    accepted("names", appends.ask([b"\x0a\x01x"], stream=there, schema=name), None, there)
    declined("the same to fruit", appends.ask([b"\x0a\x01x"], stream=DEFAULT), INVALID,
             "required column missing: id", DEFAULT)
    appends.ends_well()
    return {TABLE: (2, 1), OTHER: (2, 1)}


# ---- sizes and numbers

def sized(length):
    """A request of so many bytes, of one row with a long name."""
    name = length - 100
    while (request := append_request([Fruit(id=1, name="x" * name)], DEFAULT, schema=Fruit)).ByteSize() != length:
        name += length - request.ByteSize()
    return request


@test("messages of 9 MB and of the greatest length")
def lengths(c):
    for length in (9_000_000, LONGEST):
        responses = list(c.client.append_rows(iter([sized(length)]), timeout=20))
        same(f"{length} bytes, responses", len(responses), 1)
        accepted(f"{length} bytes", responses[0], None, DEFAULT)
    refused("a byte more", EXHAUSTED, "message too long",
            lambda requests, timeout: list(c.client.append_rows(requests, timeout=timeout)), iter([sized(LONGEST + 1)]))
    same("the connection goes on", get(c.client, DEFAULT).type, COMMITTED)
    return {TABLE: (2, 2)}


@test("1,000 appends before the first response is read")
def in_flight(c):
    name = create(c.client, COMMITTED).name
    sent = threading.Event()

    def requests():
        for n in range(1000):
            yield append_request([Fruit(id=n)] * 3, offset=3 * n, **({} if n else {"stream": name, "schema": Fruit}))
        sent.set()

    call = c.client.append_rows(requests(), timeout=20)
    if not sent.wait(20):
        raise AssertionError("the requests weren't sent")
    for n, response in enumerate(call):
        accepted(f"append {n}", response, 3 * n, "" if n else name)
    same("responses", n, 999)
    same("finalised", finalize(c.client, name), 3000)
    return {TABLE: (1002, 3000)}


@test("300 calls at once")
def at_once(c):
    made = create(c.client, PENDING)
    made.ClearField("table_schema")
    request = storage.GetWriteStreamRequest(name=made.name)
    calls = [c.client.get_write_stream.future(request, timeout=20) for _ in range(300)]
    for call in calls:
        same("a stream", call.result(), made)


@test("calls side by side")
def side_by_side(c):
    name = create(c.client, COMMITTED).name
    calls = [Appends(c.client) for _ in range(2)]
    for n, appends in enumerate(calls):
        accepted("a first row", appends.ask([APPLE], stream=name, offset=n, schema=Fruit), n, name)
    accepted("the first call's", calls[0].ask([PEAR], offset=2), 2)
    declined("the other call's", calls[1].ask([PEAR], offset=2), EXISTS, "offset already written")
    same("finalised", finalize(c.client, name), 3)
    for appends in calls:
        declined("behind the end", appends.ask([PLUM], offset=3), PRECONDITION, "stream is finalised")
        appends.ends_well()
    return {TABLE: (5, 3)}


# ---- calls

@test("methods that aren't there")
def unknown(c):
    for path in (SERVICE + "AppendRow", "/google.cloud.bigquery.storage.v1.Other/AppendRows", "/x"):
        refused(path, UNIMPLEMENTED, "unknown method", c.channel.unary_unary(path), b"")


@test("messages that can't be read")
def unreadable(c):
    read = c.channel.unary_unary(SERVICE + "GetWriteStream")
    refused("a group", INVALID, "malformed message at 0", read, b"\x0b")
    refused("a short field", INVALID, "malformed message at 2", read, b"\x18\x01\x0a\x02x")
    refused("no UTF-8", INVALID, "bad text in field 1", read, b"\x0a\x01\xff")
    refused("an empty one", INVALID, "bad resource name", read, b"")
    append = c.channel.stream_stream(SERVICE + "AppendRows")
    good = append_request([APPLE], DEFAULT, schema=Fruit).SerializeToString()
    for what, code, text, message in (("a bad one", INVALID, "malformed message at 0", b"\x22\x01\x0b"),
                                      ("Arrow rows", UNIMPLEMENTED, "unsupported field 5", b"\x2a\x00")):
        call = append(iter([good, message, good]), timeout=20)
        same("the response before", len(next(call)), len(DEFAULT) + 4)
        try:
            raise AssertionError(f"{what}: {next(call)!r}")
        except grpc.RpcError as error:
            same(what, status_of(error), (code, text))
    return {TABLE: (2, 2)}


@test("one message wanted")
def one_wanted(c):
    request = storage.GetWriteStreamRequest(name=DEFAULT).SerializeToString()
    call = c.channel.stream_unary(SERVICE + "GetWriteStream")
    refused("two", INVALID, "one message wanted", call, iter([request, request]))
    refused("none", INVALID, "one message wanted", call, iter([]))
    same("one", WriteStream.FromString(call(iter([request]), timeout=20)).type, COMMITTED)
    same("no append", list(c.client.append_rows(iter([]), timeout=20)), [])


@test("compressed messages")
def compressed(c):
    request = append_request([Fruit(id=1, name="x" * 5000)], DEFAULT, schema=Fruit)
    refused("gzip", UNIMPLEMENTED, "compressed message",
            lambda requests, timeout: list(
                c.client.append_rows(requests, timeout=timeout, compression=grpc.Compression.Gzip)), iter([request]))
    accepted("as it is", append_once(c.client, [APPLE]), None, DEFAULT)
    return {TABLE: (1, 1)}


@test("a call that its client gives up")
def cancelled(c):
    name = create(c.client, COMMITTED).name
    appends = Appends(c.client)
    accepted("a row", appends.ask([APPLE], stream=name, offset=0, schema=Fruit), 0, name)
    appends.call.cancel()
    appends.end()
    declined("the row is kept", append_once(c.client, [APPLE], 0, name), EXISTS, "offset already written", name)
    return {TABLE: (2, 1)}


@test("fields that clients send beside")
def metadata(c):
    beside = (("x-goog-request-params", "write_stream=" + DEFAULT), ("x-any-bin", bytes(range(256))),
              ("x-long", "y" * 6000))
    for _ in range(3):
        request = storage.GetWriteStreamRequest(name=DEFAULT)
        same("a stream", c.client.get_write_stream(request, timeout=20, metadata=beside).name, DEFAULT)


@test("the client of the examples")
def example(c):
    c.channel.close()
    script = TOP / "examples" / "append.py"
    ran = subprocess.run([sys.executable, "-B", script, c.address, TABLE], capture_output=True, text=True, timeout=20)
    same("its status", (ran.returncode, ran.stderr), (0, ""))
    lines = ran.stdout.splitlines()
    same("its last line", lines[-1][:13], "committed at ")
    same("rows that were written before", lines.count("  these rows were written before"), 2)
    same("the flush", lines.count("  flushed up to row 1"), 1)
    return {TABLE: (12, 5)}


# ---- the run

def played(way, program, specs, function):
    connection = Connection(way, program, specs)
    try:
        left = function(connection)
    finally:
        status = connection.close()
    same("the program's status", status, 0)
    lines = connection.program.summary()
    if left is not None and lines is not None:
        same("the tables", lines, [f"{name} entries {held[0]} visible {held[1]}" for name, held in left.items()])


def main(tests, file):
    """Runs the tests of a file that are named, or all of them."""
    way, program, *wanted = sys.argv[1:]
    passed = failed = 0
    for title, specs, function in tests:
        if wanted and title not in wanted:
            continue
        try:
            played(way, program, specs, function)
            passed += 1
        except Exception as error:
            failed += 1
            where = traceback.extract_tb(error.__traceback__)
            lines = [frame.lineno for frame in where if frame.filename == file and frame.name != "same"]
            print(f"clients: {title}: line {lines[-1] if lines else 0}: {error}", file=sys.stderr)
    print(f"clients: {passed} passed, {failed} failed")
    sys.exit(failed != 0)


if __name__ == "__main__":
    main(TESTS, __file__)
