"""A table by its definitions alone, as docs/TABLE.md has them: the history is a list, and each answer walks it anew. It
shares nothing with the crates, and is slow."""

WEIGHT, ENTRIES, LIFETIME = 268_435_456, 4_194_304, 21_600_000_000
STREAMS, SESSIONS, NODES, ROOTS, ROOTS_UNASKED = 10_000, 4_096, 4_096, 100, 4
COLUMNS = ("id", "tag")
CODES = {"offset already written": 6, "offset past the end": 11, "stream is finalised": 9, "read session has expired": 9,
         "no such write stream": 5, "no such read stream": 5, "table is full": 8, "history is full": 8,
         "too many write streams": 8, "too many sessions": 8, "too many read streams": 8}


class Refused(Exception):
    pass


def refuse(when, why):
    if when:
        raise Refused(f"refused {CODES.get(why, 3)} {why}")


def truth(restriction, row):
    """True, False, or None where it is unknown. A restriction is a list of alternatives here."""
    found = [atom(part.split(), row) for part in restriction.split(" OR ")]
    return True if True in found else None if None in found else False


def atom(words, row):
    if not words:
        return True
    name, sign, *rest = words
    value = row[COLUMNS.index(name)]
    if [sign, *rest] == ["IS", "NULL"]:
        return value is None
    if value is None:
        return None
    wanted = int(rest[0]) if name == "id" else rest[0].strip("'")
    return {"=": value == wanted, ">": value > wanted, ">=": value >= wanted, "<": value < wanted}[sign]


def row_text(row):
    shown = "".join(["" if row[0] is None else str(row[0]), "" if len(row) < 2 or row[1] is None else f":{row[1]}"])
    return " " + shown


class Table:
    def __init__(self):
        self.history = []

    # What a history says

    def moment(self):
        return max([entry["moment"] for entry in self.history], default=0)

    def appends(self, history, stream):
        return [entry for entry in history if entry["verb"] == "append" and entry["stream"] == stream]

    def content(self, history, stream):
        return [row for entry in self.appends(history, stream) for row in entry["rows"]]

    def create(self, stream):
        return next((e for e in self.history if e["verb"] == "create" and e["stream"] == stream), None)

    def kind(self, stream):
        return "COMMITTED" if stream == "default" else self.create(stream)["kind"]

    def is_there(self, stream):
        return stream == "default" or self.create(stream) is not None

    def flushed(self, history, stream):
        return ([0] + [e["upto"] for e in history if e["verb"] == "flush" and e["stream"] == stream])[-1]

    def is_finalised(self, stream):
        return any(e["verb"] == "finalise" and e["stream"] == stream for e in self.history)

    def committed(self, stream):
        return next((e["moment"] for e in self.history if e["verb"] == "commit" and stream in e["streams"]), None)

    def visible(self, history):
        rows = []
        for at, entry in enumerate(history):
            before = history[:at]
            if entry["verb"] == "append" and self.kind(entry["stream"]) == "COMMITTED":
                rows += entry["rows"]
            if entry["verb"] == "flush":
                stream = entry["stream"]
                rows += self.content(before, stream)[self.flushed(before, stream):entry["upto"]]
            if entry["verb"] == "commit":
                for stream in entry["streams"]:
                    rows += self.content(before, stream)
        return rows

    def visible_by(self, moment):
        return len(self.visible([entry for entry in self.history if entry["moment"] <= moment]))

    def session(self, number):
        return next((e for e in self.history if e["verb"] == "session" and e["session"] == number), None)

    def nodes(self, number):
        """The intervals and the children of a session's nodes."""
        begun = self.session(number)
        if begun is None:
            return []
        at, roots = begun["at"], begun["roots"]
        found = [[i * at // roots, (i + 1) * at // roots, None] for i in range(roots)]
        for entry in self.history:
            if entry["verb"] == "split" and entry["session"] == number:
                low, high, _ = found[entry["node"]]
                middle = (low + high) // 2
                found[entry["node"]][2] = (entry["left"], entry["right"])
                found += [[low, middle, None], [middle, high, None]]
        return found

    # What commands are answered

    def accept(self, when, **entry):
        refuse(len(self.history) >= ENTRIES, "history is full")
        now, caller = when
        number = sum(entry["caller"] == caller for entry in self.history)
        entry.update(caller=caller, number=number, moment=max(now, self.moment()))
        self.history.append(entry)
        return entry["moment"]

    def stream(self, stream):
        refuse(not self.is_there(stream), "no such write stream")

    def do_create(self, when, kind):
        number = sum(entry["verb"] == "create" for entry in self.history) + 1
        refuse(number > STREAMS, "too many write streams")
        moment = self.accept(when, verb="create", stream=str(number), kind=kind)
        return f"stream {number} at {moment}"

    def do_append(self, when, stream, offset, *words):
        self.stream(stream)
        rows = [(int(word.split(":")[0]), word.split(":")[1] if ":" in word else None) for word in words]
        end = len(self.content(self.history, stream))
        size = sum(len(tag) for _, tag in rows if tag)
        weight = sum(96 * len(e["rows"]) + e["bytes"] for e in self.history if e["verb"] == "append")
        refuse(not rows, "no rows")
        refuse(stream == "default" and offset != "-", "offset on default stream")
        refuse(offset != "-" and int(offset) < 0, "negative offset")
        refuse(offset != "-" and int(offset) < end, "offset already written")
        refuse(offset != "-" and int(offset) > end, "offset past the end")
        refuse(self.is_finalised(stream), "stream is finalised")
        refuse(weight + 96 * len(rows) + size > WEIGHT, "table is full")
        self.accept(when, verb="append", stream=stream, offset=end, rows=rows, bytes=size)
        return "appended" if stream == "default" else f"offset {end}"

    def do_flush(self, when, stream, offset):
        self.stream(stream)
        refuse(self.kind(stream) != "BUFFERED", "wrong stream type")
        refuse(offset == "-", "no offset")
        refuse(int(offset) < 0, "negative offset")
        refuse(int(offset) >= len(self.content(self.history, stream)), "offset past the end")
        upto = int(offset) + 1
        if upto > self.flushed(self.history, stream):
            self.accept(when, verb="flush", stream=stream, upto=upto)
        return f"flushed {self.flushed(self.history, stream) - 1}"

    def do_finalise(self, when, stream):
        self.stream(stream)
        refuse(stream == "default", "wrong stream type")
        if not self.is_finalised(stream):
            self.accept(when, verb="finalise", stream=stream)
        return f"finalised {len(self.content(self.history, stream))}"

    def error(self, stream):
        if not self.is_there(stream):
            return 3
        if self.kind(stream) != "PENDING":
            return 4
        if self.committed(stream) is not None:
            return 2
        return None if self.is_finalised(stream) else 5

    def do_commit(self, when, *streams):
        refuse(not streams, "no streams named")
        named = [stream for stream in streams if stream != "other"]
        refuse(len(set(named)) < len(named), "stream named twice")
        errors = [(place, self.error(stream)) for place, stream in enumerate(streams)]
        if any(code for _, code in errors):
            return "not committed" + "".join(f" {place}:{code}" for place, code in errors if code)
        return f"committed at {self.accept(when, verb='commit', streams=streams)}"

    def do_get(self, when, stream):
        self.stream(stream)
        created = self.create(stream)
        times = (created and created["moment"], self.committed(stream))
        return " ".join([self.kind(stream), *("-" if time is None else str(time) for time in times)])

    def do_session(self, when, count, snapshot, columns, restriction):
        count, moment = int(count), max(when[0], self.moment())
        refuse(count < 0, "negative stream count")
        number = sum(entry["verb"] == "session" for entry in self.history) + 1
        refuse(number > SESSIONS, "too many sessions")
        at = self.visible_by(moment if snapshot == "-" else int(snapshot))
        roots = max(1, min(at, ROOTS, count or ROOTS_UNASKED))
        chosen = [i for i, name in enumerate(COLUMNS) if columns == "*" or name in columns.lower().split(",")]
        self.accept(when, verb="session", session=number, at=at, roots=roots, restriction=restriction, chosen=chosen)
        return f"session {number} roots {roots} until {moment + LIFETIME}"

    def readable(self, when, session, node):
        nodes = self.nodes(session)
        refuse(node >= len(nodes), "no such read stream")
        expires = self.session(session)["moment"] + LIFETIME
        refuse(max(when[0], self.moment()) >= expires, "read session has expired")
        return nodes, expires

    def do_split(self, when, session, node):
        session, node = int(session), int(node)
        nodes, _ = self.readable(when, session, node)
        low, high, children = nodes[node]
        if high - low < 2:
            return "no children"
        if children is None:
            refuse(len(nodes) + 2 > NODES, "too many read streams")
            children = (len(nodes), len(nodes) + 1)
            self.accept(when, verb="split", session=session, node=node, left=children[0], right=children[1])
        return f"children {children[0]} {children[1]}"

    def do_read(self, when, session, node, offset):
        session, node, offset = int(session), int(node), int(offset)
        nodes, expires = self.readable(when, session, node)
        low, high, _ = nodes[node]
        begun = self.session(session)
        rows = [row for row in self.visible(self.history)[low:high] if truth(begun["restriction"], row) is True]
        told = f"[{low},{high}) until {expires}:"
        if offset > len(rows):
            return f"{told} past the end, matched {len(rows)}"
        places = [(row[0] if 0 in begun["chosen"] else None, row[1] if 1 in begun["chosen"] else None) for row in rows]
        return told + "".join(row_text(row) for row in places[offset:])

    def act(self, text):
        """What a line is told."""
        when, verb, *words = text.split(" ")
        now, _, caller = when.partition("@")
        if verb == "session":
            words = [*words[:3], " ".join(words[3:])]
        try:
            told = getattr(self, f"do_{verb}")((int(now), int(caller or 0)), *words)
        except Refused as why:
            told = str(why)
        if verb == "read":
            return told
        return f"{told}; entries {len(self.history)} visible {len(self.visible(self.history))}"

    def entry_text(self, e):
        shown = {
            "create": lambda: f"create {e['stream']} {e['kind']}",
            "append": lambda: f"append {e['stream']} {e['offset']} bytes {e['bytes']}" + "".join(map(row_text, e["rows"])),
            "flush": lambda: f"flush {e['stream']} {e['upto']}",
            "finalise": lambda: f"finalise {e['stream']}",
            "commit": lambda: " ".join(["commit", *e["streams"]]),
            "session": lambda: f"session {e['session']} at {e['at']} roots {e['roots']}",
            "split": lambda: f"split {e['session']} {e['node']} {e['left']} {e['right']}",
        }[e["verb"]]()
        return f"  {e['moment']}@{e['caller']} {e['number']} {shown}"

    def entries_text(self):
        return [f"{len(self.history)} entries", *map(self.entry_text, self.history)]


def groups_text(sizes, earlier, groups, positions, restriction):
    """What a line `groups` is told."""
    sizes = [int(size) for size in sizes.split(",")]
    counts = [sizes[group % len(sizes)] for group in range(int(groups))]
    first, rows = sum(counts[:int(earlier)]), sum(counts)
    starts = [0]
    for count in counts:
        starts.append(starts[-1] + count)
    places = []
    for position in map(int, positions.split(",")):
        group = next((g for g in range(len(counts)) if starts[g] <= position < starts[g + 1]), None)
        places.append(f" {position}=" + ("none" if group is None else f"{group}/{position - starts[group]}"))
    matching = "".join(f" {n}" for n in range(rows) if truth(restriction, (n, None)) is True)
    return f"{first} of {first} rows, {rows} of {rows} rows; at{''.join(places)}; matching:{matching}"
