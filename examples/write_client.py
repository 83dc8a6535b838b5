"""The write service of the BigQuery Storage API for Python: its messages, which protoc makes of the .proto files beside
this one when it is imported, and its methods over a channel of gRPC.

It needs protoc and the packages grpcio and protobuf. Debian has them as protobuf-compiler with
libprotobuf-dev, python3-grpcio and python3-protobuf, for its own /usr/bin/python3. A project would run protoc once and keep what it makes."""
import os
import pathlib
import subprocess
import sys
import tempfile

# Nothing that is started beside a channel here uses the channel.
os.environ.setdefault("GRPC_ENABLE_FORK_SUPPORT", "0")

import grpc

HERE = pathlib.Path(__file__).resolve().parent
SERVICE = "/google.cloud.bigquery.storage.v1.BigQueryWrite/"


def compiled():
    """The messages of the service and of the rows of the examples."""
    with tempfile.TemporaryDirectory() as folder:
        roots = (HERE / "proto", HERE)
        files = [path.relative_to(roots[0]) for path in sorted(roots[0].rglob("*.proto"))]
        subprocess.run(["protoc", *(f"-I{root}" for root in roots), f"--python_out={folder}", *files, "fruit.proto"],
                       check=True)
        sys.path.insert(0, folder)
        from google.cloud.bigquery.storage.v1 import storage_pb2, stream_pb2, table_pb2
        import fruit_pb2
        sys.path.remove(folder)
    return storage_pb2, stream_pb2, table_pb2, fruit_pb2


storage, stream, table, fruit = compiled()
WriteStream = stream.WriteStream
Fruit = fruit.Fruit


def channel_to(address):
    """A channel to HOST:PORT, as a connection of its own."""
    return grpc.insecure_channel(address, options=[
        ("grpc.enable_http_proxy", 0),
        ("grpc.use_local_subchannel_pool", 1),
        ("grpc.initial_reconnect_backoff_ms", 100),
    ])


class WriteClient:
    """The six methods. Each takes a request of its kind; append_rows takes requests one by one and gives responses."""

    def __init__(self, channel):
        def one(name, request, response):
            return channel.unary_unary(SERVICE + name, request.SerializeToString, response.FromString)

        self.create_write_stream = one("CreateWriteStream", storage.CreateWriteStreamRequest, WriteStream)
        self.get_write_stream = one("GetWriteStream", storage.GetWriteStreamRequest, WriteStream)
        self.finalize_write_stream = one(
            "FinalizeWriteStream", storage.FinalizeWriteStreamRequest, storage.FinalizeWriteStreamResponse)
        self.flush_rows = one("FlushRows", storage.FlushRowsRequest, storage.FlushRowsResponse)
        self.batch_commit_write_streams = one(
            "BatchCommitWriteStreams", storage.BatchCommitWriteStreamsRequest, storage.BatchCommitWriteStreamsResponse)
        self.append_rows = channel.stream_stream(
            SERVICE + "AppendRows", storage.AppendRowsRequest.SerializeToString, storage.AppendRowsResponse.FromString)


def append_request(rows, stream=None, offset=None, schema=None):
    """A request of append_rows: the rows, each a message or its bytes; the name of the write stream and the type of the
    rows' messages, which a call remembers; the offset of the first row."""
    request = storage.AppendRowsRequest()
    if stream is not None:
        request.write_stream = stream
    if offset is not None:
        request.offset.value = offset
    if schema is not None:
        schema.DESCRIPTOR.CopyToProto(request.proto_rows.writer_schema.proto_descriptor)
    serialized = (row if isinstance(row, bytes) else row.SerializeToString() for row in rows)
    request.proto_rows.rows.serialized_rows.extend(serialized)
    return request
