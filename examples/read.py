#!/usr/bin/python3
"""Reads a table of a server through several read streams at once, one of which is split before.

    examples/read.py HOST:PORT [TABLE]

The table is that of append.py, where none is named; five rows are appended first."""
import concurrent.futures
import sys

from read_client import ReadClient, rows_of, session_request, storage
from write_client import Fruit, WriteClient, append_request, channel_to

ROWS = [Fruit(id=n, name=name, ripe=n % 2 == 0) for n, name in enumerate(("apple", "pear", "quince", "plum", "fig"))]


def append(client, table, rows):
    """To the default stream, whose rows are seen at once."""
    for response in client.append_rows(iter([append_request(rows, stream=table + "/_default", schema=Fruit)])):
        if response.HasField("error"):
            sys.exit(f"append: {response.error.message}")


def read(client, name, offset=0):
    """The rows of a read stream from an offset on; who was cut off behind some rows goes on there."""
    return list(rows_of(client.read_rows(storage.ReadRowsRequest(read_stream=name, offset=offset))))


def split(client, name):
    """The read streams into which this one is split, or itself where it is too short."""
    response = client.split_read_stream(storage.SplitReadStreamRequest(name=name))
    if not response.HasField("primary_stream"):
        return [name]
    return [response.primary_stream.name, response.remainder_stream.name]


def shown(rows):
    return "".join(f" {row['id']} {row['name']}," for row in rows)


def main():
    if len(sys.argv) not in (2, 3):
        sys.exit(__doc__)
    table = sys.argv[2] if len(sys.argv) == 3 else "projects/shop/datasets/stock/tables/fruit"
    with channel_to(sys.argv[1]) as channel:
        append(WriteClient(channel), table, ROWS)
        client = ReadClient(channel)
        # The session sees the rows that are visible now, and none that comes later.
        session = client.create_read_session(session_request(table, "id != 3", ["id", "name"], streams=2))
        print(session.name)
        append(WriteClient(channel), table, [Fruit(id=5, name="late")])
        first, *others = [stream.name for stream in session.streams]
        streams = split(client, first) + others
        with concurrent.futures.ThreadPoolExecutor() as pool:
            parts = list(pool.map(lambda name: read(client, name), streams))
        for name, rows in zip(streams, parts):
            print(f"  stream {name.rsplit('/', 1)[1]}:{shown(rows)}")
        print(f"  the last one from its second row on:{shown(read(client, streams[-1], 1))}")


if __name__ == "__main__":
    main()
