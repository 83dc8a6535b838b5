#!/usr/bin/python3
"""Appends rows to a table of a server, and sees to it that each is there once, also where an answer was lost.

    examples/append.py HOST:PORT [TABLE]

The table has the columns id:INT64:REQUIRED,name:STRING,ripe:BOOL,picked:DATE; where none is named it is
projects/shop/datasets/stock/tables/fruit."""
import sys

from write_client import Fruit, WriteClient, WriteStream, append_request, channel_to, storage

BATCHES = [
    [Fruit(id=1, name="apple", ripe=True, picked=20_000), Fruit(id=2, name="pear")],
    [Fruit(id=3, name="quince", ripe=False)],
]
ALREADY_EXISTS = 6


def create(client, table, kind):
    """Makes a write stream of the table and gives its name."""
    request = storage.CreateWriteStreamRequest(parent=table, write_stream=WriteStream(type=kind))
    return client.create_write_stream(request).name


def append(client, stream, batches):
    """Appends batch after batch, each at its offset. Where it was written before, as it is after an answer that didn't
    arrive, the server says so and keeps the rows once."""
    def requests():
        offset = 0
        for batch in batches:
            # The first request names the stream and the type of the rows; the call remembers both.
            first = {"stream": stream, "schema": Fruit} if offset == 0 else {}
            yield append_request(batch, offset=offset, **first)
            offset += len(batch)

    for response in client.append_rows(requests()):
        if not response.HasField("error"):
            print(f"  rows from {response.append_result.offset.value} on are written")
        elif response.error.code == ALREADY_EXISTS:
            print("  these rows were written before")
        else:
            for row in response.row_errors:
                print(f"  row {row.index}: {row.message}")
            sys.exit(f"append: {response.error.message}")


def buffered(client, table):
    """Rows that are seen once they are flushed."""
    stream = create(client, table, WriteStream.BUFFERED)
    print(stream)
    append(client, stream, BATCHES)
    print("  the same again")
    append(client, stream, BATCHES)
    # The offset of the last row that is to be seen.
    request = storage.FlushRowsRequest(write_stream=stream)
    request.offset.value = 1
    print("  flushed up to row", client.flush_rows(request).offset)
    finalize(client, stream)


def finalize(client, stream):
    """Ends a stream: it takes no more rows."""
    response = client.finalize_write_stream(storage.FinalizeWriteStreamRequest(name=stream))
    print("  finalised with", response.row_count, "rows")


def pending(client, table):
    """Rows of several streams that are seen at once, or not at all."""
    streams = [create(client, table, WriteStream.PENDING) for _ in range(2)]
    for stream, batch in zip(streams, BATCHES):
        print(stream)
        append(client, stream, [batch])
        finalize(client, stream)
    response = client.batch_commit_write_streams(
        storage.BatchCommitWriteStreamsRequest(parent=table, write_streams=streams))
    for error in response.stream_errors:
        print(f"  {error.entity}: {error.error_message}")
    if response.HasField("commit_time"):
        print("committed at", response.commit_time.ToJsonString())


def main():
    if len(sys.argv) not in (2, 3):
        sys.exit(__doc__)
    table = sys.argv[2] if len(sys.argv) == 3 else "projects/shop/datasets/stock/tables/fruit"
    with channel_to(sys.argv[1]) as channel:
        client = WriteClient(channel)
        buffered(client, table)
        pending(client, table)


if __name__ == "__main__":
    main()
