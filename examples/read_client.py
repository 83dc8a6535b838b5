"""The read service of the BigQuery Storage API for Python: its methods over a channel of gRPC, and the rows of responses.

It needs what write_client.py needs, and python3-avro."""
import io
import json

import avro.io
import avro.schema

from write_client import storage, stream

SERVICE = "/google.cloud.bigquery.storage.v1.BigQueryRead/"
ReadSession = stream.ReadSession


class ReadClient:
    """The three methods. Each takes a request of its kind; read_rows gives responses one by one."""

    def __init__(self, channel):
        self.create_read_session = channel.unary_unary(
            SERVICE + "CreateReadSession", storage.CreateReadSessionRequest.SerializeToString, ReadSession.FromString)
        self.split_read_stream = channel.unary_unary(
            SERVICE + "SplitReadStream", storage.SplitReadStreamRequest.SerializeToString,
            storage.SplitReadStreamResponse.FromString)
        self.read_rows = channel.unary_stream(
            SERVICE + "ReadRows", storage.ReadRowsRequest.SerializeToString, storage.ReadRowsResponse.FromString)


def session_request(table, restriction="", columns=(), streams=0, snapshot=None):
    """A request of create_read_session: which rows of the table, which of its columns, and how many read streams at most.
    A snapshot is a Timestamp."""
    project = "/".join(table.split("/")[:2])
    request = storage.CreateReadSessionRequest(parent=project, max_stream_count=streams)
    session = request.read_session
    session.table = table
    session.data_format = stream.AVRO
    session.read_options.row_restriction = restriction
    session.read_options.selected_fields.extend(columns)
    if snapshot is not None:
        session.table_modifiers.snapshot_time.CopyFrom(snapshot)
    return request


def schema_in(text):
    """A reader of rows of this schema. A date stays a number of days, and a timestamp one of microseconds."""
    def plain(item):
        if isinstance(item, dict):
            return {key: plain(value) for key, value in item.items() if key != "logicalType"}
        if isinstance(item, list):
            return [plain(value) for value in item]
        return item

    return avro.io.DatumReader(avro.schema.parse(json.dumps(plain(json.loads(text)))))


def rows_of(responses):
    """The rows of the responses of one read_rows call, each a dict by the names of its columns."""
    reader = None
    for response in responses:
        if response.HasField("avro_schema"):
            reader = schema_in(response.avro_schema.schema)
        stored = io.BytesIO(response.avro_rows.serialized_binary_rows)
        decoder = avro.io.BinaryDecoder(stored)
        for _ in range(response.row_count):
            yield reader.read(decoder)
        if stored.read(1):
            raise ValueError("bytes behind the rows of a response")
