"""Runs the clients of the examples against `bqstored serve` as a user types them, a server for each, and compares what
both print. A client's name says which example it is: append or read, with or without a suffix.

    tests/clients/examples.py PROGRAM CLIENT.."""
import os
import pathlib
import re
import subprocess
import sys
import threading

from connections import TOP

PATIENCE = 60
TABLE = "projects/shop/datasets/stock/tables/fruit"
SPEC = TABLE + "=id:INT64:REQUIRED,name:STRING,ripe:BOOL,picked:DATE"
APPEND_PRINTS = f"""\
{TABLE}/streams/s1
  rows from 0 on are written
  rows from 2 on are written
  the same again
  these rows were written before
  these rows were written before
  flushed up to row 1
  finalised with 3 rows
{TABLE}/streams/s2
  rows from 0 on are written
  finalised with 2 rows
{TABLE}/streams/s3
  rows from 0 on are written
  finalised with 1 rows
committed at TIME
"""
# Three streams created, four appends that were taken, a flush, three ends and a commit; the flush shows two rows, the
# commit three.
APPEND_LEAVES = f"{TABLE} entries 12 visible 5\n"
READ_PRINTS = """\
projects/shop/locations/local/sessions/t0-1
  stream 2: 0 apple,
  stream 3: 1 pear,
  stream 1: 2 quince, 4 fig,
  the last one from its second row on: 4 fig,
"""
# Two appends, of five rows and of one, a session and a split.
READ_LEAVES = f"{TABLE} entries 4 visible 6\n"
WANTED = {"append": (APPEND_PRINTS, APPEND_LEAVES), "read": (READ_PRINTS, READ_LEAVES)}


def run(program, client):
    """What the client and the server print, and their statuses."""
    prints, leaves = WANTED[pathlib.Path(client).stem]
    words = [program, "serve", "--listen", "127.0.0.1:0", "--workers", "4", "--connections", "1", "--table", SPEC]
    server = subprocess.Popen(words, stdout=subprocess.PIPE, stderr=subprocess.PIPE, text=True, cwd=TOP)
    timer = threading.Timer(PATIENCE, server.kill)
    timer.start()
    try:
        said = server.stderr.readline()
        address = said.removeprefix("bqstored: listening on ").strip()
        ran = subprocess.run([client, address], capture_output=True, text=True, timeout=PATIENCE, cwd=TOP,
                             env=os.environ | {"PYTHONDONTWRITEBYTECODE": "1"})
        report, more = server.communicate()
    finally:
        timer.cancel()
        server.kill()
    printed = re.sub(r"committed at \d{4}-\d\d-\d\dT\d\d:\d\d:\d\d(\.\d+)?Z\n$", "committed at TIME\n", ran.stdout)
    return [("the client's output", printed, prints), ("its standard error", ran.stderr, ""),
            ("its status", ran.returncode, 0), ("the server's output", report, leaves),
            ("its standard error", said + more, f"bqstored: listening on {address}\n"),
            ("its status", server.returncode, 0)]


def main():
    program, *clients = sys.argv[1:]
    failed = 0
    for client in clients:
        try:
            wrong = [f"{what}: {got!r}, not {wanted!r}" for what, got, wanted in run(program, client) if got != wanted]
        except (OSError, subprocess.TimeoutExpired) as error:
            wrong = [str(error)]
        failed += bool(wrong)
        for line in wrong:
            print(f"examples: {client}: {line}", file=sys.stderr)
    print(f"examples: {len(clients) - failed} passed, {failed} failed")
    sys.exit(failed != 0)


if __name__ == "__main__":
    main()
