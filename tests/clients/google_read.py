"""What Google's own client in Go reads of `bqstored serve`, row by row. Rows are decoded by the avro package.

    tests/clients/google_read.py PROGRAM GOOGLE

GOOGLE is google_read.go, built by google-read."""
import base64
import io
import json
import subprocess
import sys
import time
import traceback

from connections import PATIENCE, Serve

import avro.io
from read_client import schema_in
from write_client import Fruit, WriteClient, channel_to
from write import DEFAULT, SPEC, TABLE, accepted, append_once, same

EARLIER, ALL, KEPT = 1_500, 4_000, 3_500


def append(client, ids):
    accepted("rows", append_once(client, [Fruit(id=n, name=f"pear {n}") for n in ids]), None, DEFAULT)


def filled(address):
    """A moment at which the table has the first rows, and not yet all of them."""
    channel = channel_to(address)
    client = WriteClient(channel)
    append(client, range(EARLIER))
    time.sleep(0.02)
    moment = time.time_ns()
    time.sleep(0.02)
    append(client, range(EARLIER, ALL))
    channel.close()
    return divmod(moment, 1_000_000_000)


def rows_of(schema, responses):
    """The rows of responses: those that each counts, and no byte more."""
    rows = []
    for response in responses:
        stored = io.BytesIO(base64.b64decode(response["Rows"]))
        decoder = avro.io.BinaryDecoder(stored)
        rows += [schema_in(schema).read(decoder) for _ in range(response["Count"])]
        same("bytes behind the rows of a response", stored.read(), b"")
    return rows


def compared(told):
    """Each way to read gives the rows, each once."""
    wanted = [{"id": n, "name": f"pear {n}"} for n in range(KEPT)]
    rows = {key: rows_of(told["Schema"], part) for key, part in told.items() if key not in ("Schema", "Several")}
    several = [row for part in told["Several"] for row in rows_of(told["Schema"], part)]
    same("read streams", len(told["Several"]), 3)
    same("through several read streams", several, wanted)
    same("through a read stream that was split", rows["Whole"], wanted)
    same("through its halves", rows["Primary"] + rows["Remainder"], wanted)
    same("through a call and the one behind it", rows["Broken"] + rows["Resumed"], wanted)
    same("of the snapshot", rows["Earlier"], wanted[:EARLIER])
    for half in ("Primary", "Remainder", "Resumed"):
        same(f"{half} has rows", bool(rows[half]), True)


def main():
    program, google = sys.argv[1:]
    server = Serve(program, ["--table", SPEC], connections=2)
    try:
        seconds, nanoseconds = filled(server.address)
        words = [google, server.address, TABLE, f"id < {KEPT}", "id,name", str(seconds), str(nanoseconds)]
        ran = subprocess.run(words, stdout=subprocess.PIPE, timeout=6 * PATIENCE, check=True)
    finally:
        status = server.close()
    compared(json.loads(ran.stdout))
    same("the program's status", status, 0)
    print("clients: Google's client passed")


if __name__ == "__main__":
    try:
        main()
    except Exception:
        traceback.print_exc()
        sys.exit("clients: Google's client failed")
