"""Keys, rows and pages, as the manual says them: whether bytes are in a grammar, and where they leave it.

Nothing here follows the program: whether some bytes begin a page is told from the bounds of each field, as numbers, and the
first wrong place is looked for by halves, since what begins no page is begun by no page either.
"""

SIZE = 4096
HEAD = 16
BODY = SIZE - HEAD
PAGES = 65536


class Kind:
    """A kind of values: `int`, `bool`, `text` with its limit, or `entity`."""

    def __init__(self, word):
        self.name, _, limit = word.partition(":")
        self.limit = int(limit) if limit else 0
        self.width = {"int": 8, "bool": 1, "text": self.limit + 1, "entity": 6}[self.name]


def key(kind, value):
    """The key of a value."""
    match kind.name:
        case "int":
            return (value + 2**63).to_bytes(8, "big")
        case "bool":
            return bytes([int(value)])
        case "text":
            return value + bytes(kind.limit - len(value)) + bytes([len(value)])
        case "entity":
            return value[0].to_bytes(2, "big") + value[1].to_bytes(4, "big")


def value_of(kind, data):
    """The value with a key, or the place of the byte at which it is refused."""
    last = kind.width - 1
    match kind.name:
        case "int":
            return int.from_bytes(data, "big") - 2**63, None
        case "bool":
            return (bool(data[0]), None) if data[0] < 2 else (None, 0)
        case "text":
            length = data[-1]
            if length > kind.limit or any(data[length:-1]):
                return None, last
            try:
                data[:length].decode("utf-8")
            except UnicodeDecodeError:
                return None, last
            return data[:length], None
        case "entity":
            entity = int.from_bytes(data[:2], "big"), int.from_bytes(data[2:], "big")
            return (entity, None) if entity[1] else (None, 5)


# ---- rows: a field is a word and a kind


def field_width(field):
    word, kind = field
    return {"serial": 4, "cell": 1 + kind.width if kind else 0, "key": kind.width if kind else 0}[word]


def field_value(field, data):
    """What a field holds, or the place of the byte at which it is refused."""
    word, kind = field
    if word == "serial":
        serial = int.from_bytes(data, "big")
        return (serial, None) if serial else (None, 3)
    if word == "key":
        return value_of(kind, data)
    if data[0] > 1:
        return None, 0
    if data[0] == 0:
        places = [place for place, byte in enumerate(data) if byte]
        return None, places[0] if places else None
    value, place = value_of(kind, data[1:])
    return value, None if place is None else place + 1


def row_values(fields, data):
    """What the fields of a row hold, or the place of the first byte that is refused."""
    at, values = 0, []
    for field in fields:
        width = field_width(field)
        value, place = field_value(field, data[at : at + width])
        if place is not None:
            return None, at + place
        values.append(value)
        at += width
    return values, None


# ---- pages


class Wanted:
    """What is wanted of a page: `free`, `schema`, `roots`, or `chain`, `leaf`, `node` with a store, a key and a width."""

    def __init__(self, words):
        self.word, *numbers = words
        self.store, self.key, self.width = map(int, numbers) if numbers else (0, 4, 8)


class Body:
    """How a page goes on behind its kind: the least and most that it counts, its greatest next page and last serial, and what
    its rows are: a key, so many free bytes or a page number, and whether the first key is 0."""

    def __init__(self, wanted, kind):
        serials = 2**32 - 1 if wanted.store < PAGES and wanted.word in ("chain", "leaf", "node") else 0
        self.next, self.last = PAGES - 1, serials
        self.key, self.free, self.child, self.zero = wanted.key, wanted.width - wanted.key, False, False
        self.least, self.most = 0, 0
        if kind == 1:
            self.least, self.most, self.key = 1, BODY, 0
        elif kind == 5:
            self.most, self.key, self.free, self.child = BODY // 8, 4, 4, True
        elif kind == 4:
            self.least, self.most = 2, min(BODY // (wanted.key + 4), 256**wanted.key)
            self.next, self.free, self.child, self.zero = 0, 4, True, True
        elif kind:
            self.most = min(BODY // wanted.width, 256**wanted.key)


KINDS = {"free": [0], "schema": [1], "roots": [5], "chain": [2], "leaf": [3], "node": [3, 4]}


def fits(front, size, low, high):
    """Whether bytes are the front of a number of so many bytes from `low` to `high`."""
    rest = 8 * (size - len(front))
    number = int.from_bytes(front, "big")
    return low >> rest <= number <= high >> rest


def begins(wanted, front):
    """Whether a page that is wanted begins so."""
    if not front:
        return True
    kind = front[0]
    if kind not in KINDS[wanted.word]:
        return False
    if kind == 0:
        return not any(front)
    body = Body(wanted, kind)
    store = wanted.store if kind in (2, 3, 4) else 0
    fields = [(1, 0, 0), (2, body.least, body.most), (4, store, store), (4, 0, body.next), (4, 0, body.last)]
    at = 1
    for size, low, high in fields:
        if not fits(front[at : at + size], size, low, high):
            return False
        at += size
    rest = front[HEAD:]
    count = int.from_bytes(front[2:4], "big") if len(front) >= 4 else 0
    if kind == 1:
        return not any(rest[count:])
    low = 0
    for left in range(count - 1, -1, -1):
        if not rest:
            return True
        high = 0 if body.zero and left == count - 1 else 256**body.key - 1 - left
        if not fits(rest[: body.key], body.key, low, high):
            return False
        if body.child and not fits(rest[body.key : body.key + 4], 4, 0, PAGES - 1):
            return False
        low = int.from_bytes(rest[: body.key], "big") + 1
        rest = rest[body.key + body.free :]
    return not any(rest)


def first_wrong(wanted, page):
    """None where a page is what is wanted, else the first place behind which no such page goes on."""
    if begins(wanted, page):
        return None
    sound, wrong = 0, SIZE
    while wrong - sound > 1:
        middle = (sound + wrong) // 2
        if begins(wanted, page[:middle]):
            sound = middle
        else:
            wrong = middle
    return sound


# ---- databases in pages: what a schema's stores are, how a new database begins, and what pages are read as


class BadPage(Exception):
    """The page and the place at which pages are no database."""


def entry_width(kind):
    """How many bytes the key of a value takes."""
    return {"integer": 8, "boolean": 1, "string": kind.of + 1, "entity": 6}[kind.name]


def type_width(schema, type_):
    """How many bytes a row of a type takes: its serial, and a byte and a key for each attribute of single values."""
    return 4 + sum(1 + entry_width(a.kind) for a in schema.attributes_of(type_) if not a.many)


def stores(schema):
    """The stores of a schema, ascending, each with the bytes of its rows' keys and of its rows."""
    found = {type_: (4, type_width(schema, type_)) for type_ in range(len(schema.types))}
    for a in schema.attributes:
        for kind, is_kept in [(1, a.many), (2, a.index or a.unique), (3, a.inverse is not None)]:
            if is_kept:
                found[kind * PAGES + a.number] = (6 + entry_width(a.kind),) * 2
    return dict(sorted(found.items()))


def written_kind(schema, kind):
    if kind.name == "string":
        return f"(string {kind.of})"
    return schema.types[kind.of] if kind.name == "entity" else kind.name


def written_attribute(schema, a):
    kind = written_kind(schema, a.kind)
    words = [a.name, f"(set-of {kind})" if a.many else kind]
    words += [f":inverse {a.inverse}"] if a.inverse else []
    flags = [(":unique", a.unique), (":no-nulls", a.no_nulls), (":index", a.index and not a.unique)]
    return f"({' '.join(words + [f'{word} t' for word, is_on in flags if is_on])})"


def canonical(schema):
    """The text of a schema as it is printed."""
    lines = [f"(define-schema {schema.name})\n"]
    for type_, name in enumerate(schema.types):
        parents = " ".join(schema.types[parent] for parent in schema.parents[type_])
        own = " ".join(written_attribute(schema, a) for a in schema.attributes if a.owner == type_)
        lines.append(f"(define-entity-type {name} ({parents}) ({own}))\n")
    return "".join(lines).encode()


def schema_bytes(schema):
    """A schema as it is stored: its text behind the text's length, and the numbers of its attributes."""
    text = canonical(schema)
    numbers = b"".join(a.number.to_bytes(2, "big") + b"\0" for a in schema.attributes)
    return len(text).to_bytes(4, "big") + text + numbers + len(schema.attributes).to_bytes(2, "big")


def page_of(kind, count=0, store=0, next_=0, body=b""):
    head = bytes([kind, 0]) + count.to_bytes(2, "big") + store.to_bytes(4, "big") + next_.to_bytes(4, "big") + bytes(4)
    return head + body + bytes(BODY - len(body))


def pieces(data):
    return [data[at : at + BODY] for at in range(0, len(data), BODY)] or [b""]


def new_database(schema):
    """The pages of a new database: the first ones of the roots and of the schema, the others of the schema and of the roots,
    and one page for each store."""
    texts = pieces(schema_bytes(schema))
    numbers = list(stores(schema))
    roots_pages = max(1, -(-len(numbers) // (BODY // 8)))
    first = len(texts) + roots_pages
    roots = pieces(b"".join(n.to_bytes(4, "big") + (first + i).to_bytes(4, "big") for i, n in enumerate(numbers)))
    text_numbers = [1, *range(2, len(texts) + 1), 0]
    roots_numbers = [0, *range(len(texts) + 1, first), 0]
    pages = {n: page_of(2, store=store) for n, store in enumerate(numbers, first)}
    for place, piece in enumerate(texts):
        pages[text_numbers[place]] = page_of(1, len(piece), next_=text_numbers[place + 1], body=piece)
    for place, piece in enumerate(roots):
        pages[roots_numbers[place]] = page_of(5, len(piece) // 8, next_=roots_numbers[place + 1], body=piece)
    return [pages[number] for number in range(len(pages))]


def chain(get, wanted, number):
    """The pages of a chain. None where it comes back to one of them, so that it has no end."""
    found, numbers = [], set()
    while number not in numbers:
        numbers.add(number)
        page = get(number)
        place = first_wrong(Wanted([wanted]), page)
        if place is not None:
            raise BadPage(number, place)
        found.append(page)
        number = int.from_bytes(page[8:12], "big")
        if number == 0:
            return found
    return None


def count_in(page):
    return int.from_bytes(page[2:4], "big")


def read_database(get, schema_read):
    """The schema that pages have and the first pages of its stores; `schema_read` reads a text, or answers None."""
    texts = chain(get, "schema", 1)
    data = b"".join(page[HEAD : HEAD + count_in(page)] for page in texts or [])
    size = int.from_bytes(data[:4], "big")
    schema = schema_read(data[4 : 4 + size]) if texts and len(data) >= 4 + size else None
    if schema is None or schema_bytes(schema) != data:
        raise BadPage(1, 16)
    pages = chain(get, "roots", 0)
    rows = [page[at : at + 8] for page in pages or [] for at in range(HEAD, HEAD + 8 * count_in(page), 8)]
    if not pages or [int.from_bytes(row[:4], "big") for row in rows] != list(stores(schema)):
        raise BadPage(0, 16)
    return schema, [int.from_bytes(row[4:], "big") for row in rows]


class MemoryPages:
    """Pages in memory: an array, what was put, and which pages were drawn. A call answers a word."""

    def __init__(self, array, failing):
        self.array, self.failing, self.calls = array, failing, 0
        self.put_pages, self.changed, self.drawn, self.low = {}, set(), set(), 0

    def fails(self):
        self.calls += 1
        return self.calls in self.failing

    def first(self, page):
        return self.array[page] if page < len(self.array) else bytes(SIZE)

    def image(self, page):
        return self.put_pages.get(page, self.first(page))

    def get(self, page):
        return "disk fault" if self.fails() else str(self.image(page)[0])

    def put(self, page, image):
        if self.fails():
            return "disk fault"
        changed = self.changed - {page} if image == self.first(page) else self.changed | {page}
        if len(changed) > 4000:
            return f"many {len(changed)}"
        self.put_pages[page], self.changed = image, changed
        return "ok"

    def fresh(self):
        if self.fails():
            return "disk fault"
        for page in range(self.low, PAGES):
            if page not in self.drawn and page not in self.put_pages and not any(self.first(page)):
                self.drawn.add(page)
                self.low = page
                return str(page)
        return f"full {sum(1 for page in self.array if any(page))}"
