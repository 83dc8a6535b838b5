"""Stock clients of gRPC at once, over a connection each to one `bqstored serve`: two, of which each waits for each answer,
and then 32 that wait for none.

    tests/clients/at_once.py PROGRAM"""
import concurrent.futures
import sys
import traceback

from connections import Serve

from write_client import Fruit, WriteClient, append_request, channel_to
from write import COMMITTED, SPEC, TABLE, Appends, accepted, create, same


def append_one_by_one(client, name, rows):
    """Each row once the one before it was answered."""
    appends = Appends(client)
    for offset in range(rows):
        schema = None if offset else Fruit
        accepted(f"row {offset}", appends.ask([Fruit(id=offset)], stream=name, offset=offset, schema=schema), offset, name)
    appends.ends_well()


def append_in_flight(client, name, rows):
    """All rows, whether those before were answered or not."""
    requests = (append_request([Fruit(id=offset)], stream=name, offset=offset, schema=None if offset else Fruit)
                for offset in range(rows))
    responses = list(client.append_rows(requests, timeout=300))
    same("responses", len(responses), rows)
    for offset, response in enumerate(responses):
        accepted(f"row {offset}", response, offset, name)


def appending(address, append, count, rows):
    """Each client has created its stream, and so is connected, before any appends; none leaves before all are done."""
    channels = [channel_to(address) for _ in range(count)]
    try:
        clients = [WriteClient(channel) for channel in channels]
        names = [create(client, COMMITTED).name for client in clients]
        same("their streams", names, [f"{TABLE}/streams/s{number}" for number in range(1, count + 1)])
        with concurrent.futures.ThreadPoolExecutor(count) as threads:
            list(threads.map(append, clients, names, [rows] * count))
    finally:
        for channel in channels:
            channel.close()


def at_once(program, append, count, rows):
    """Each append is once in the table's history."""
    server = Serve(program, ["--table", SPEC], connections=count, workers=count)
    try:
        appending(server.address, append, count, rows)
    finally:
        status = server.close()
    same("the program's status", status, 0)
    same("the tables", server.summary(), [f"{TABLE} entries {count * (rows + 1)} visible {count * rows}"])


def main():
    try:
        at_once(sys.argv[1], append_one_by_one, 2, 200)
        at_once(sys.argv[1], append_in_flight, 32, 1000)
    except Exception as error:
        lines = [frame.lineno for frame in traceback.extract_tb(error.__traceback__) if frame.filename == __file__]
        sys.exit(f"clients: several at once: line {lines[-1]}: {error}")
    print("clients: several at once passed")


if __name__ == "__main__":
    main()
