"""Random pages, rows and keys: sound ones, and such as are changed at a place or a few."""

import functools
import random

import writing
from drawn import SCHEMAS
from language import LAST_SERIAL
from paging import BODY, HEAD, KINDS, PAGES, SIZE, Kind, key

EDGES = [b"\0", b"\1", b"\2", b"\x7f", b"\x80", b"\xff", b"\xfe"]
LETTERS = "aZ~ \"\\\n\0\x7fé€😀"
# pieces of texts, most of them not whole
PIECES = [
    b"a", b"\x80", b"\xbf", b"\xc2", b"\xc3\xa9", b"\xe0\xa0", b"\xed\xa0\x80",
    b"\xf4\x8f\xbf\xbf", b"\xf4\x90\x80\x80", b"\xff",
]  # fmt: skip


def kind_of(kind):
    """A kind of attributes as one of keys."""
    match kind.name:
        case "integer":
            return Kind("int")
        case "boolean":
            return Kind("bool")
        case "string":
            return Kind(f"text:{kind.of}")
        case "entity":
            return Kind("entity")


def fields_of(found, type_):
    """The fields of a row of a type: the serial, and a cell for each attribute that is no set."""
    cells = [("cell", kind_of(a.kind)) for a in found.attributes_of(type_) if not a.many]
    return [("serial", None), *cells]


def tokens(form):
    return f"({' '.join(map(tokens, form))})" if isinstance(form, list) else form


@functools.cache
def written(found):
    """The text of a schema."""
    return "\n".join(map(tokens, writing.schema(found)))


def sizes(wanted, kind):
    """How many bytes a key and a row of a page have; 1 each where there are none."""
    if kind in (0, 1):
        return 1, 1
    if kind == 5:
        return 4, 8
    size, width = map(int, wanted[2:])
    return (size, size + 4) if kind == 4 else (size, width)


class Drawer:
    """Draws cases: each a front and a text."""

    def __init__(self, seed):
        self.random = random.Random(seed)

    def pick(self, *choices):
        return self.random.choice(choices)

    def byte(self):
        return self.pick(*EDGES) if self.random.random() < 0.7 else self.random.randbytes(1)

    def keys(self, size, count, is_first_zero):
        """So many ascending keys: from anywhere, from the least or up to the greatest, with small or large steps."""
        last = 256**size - 1
        if count == 0:
            return []
        begin = self.pick(0, 0, last - count + 1, self.random.randint(0, last - count + 1))
        keys, low = [], begin
        for left in range(count - 1, -1, -1):
            high = last - left
            step = self.pick(0, 0, 0, 1, 255, 256, 65536, self.random.randint(0, high - low))
            keys.append(min(high, low + step))
            low = keys[-1] + 1
        if is_first_zero:
            keys[0] = 0
        return [number.to_bytes(size, "big") for number in keys]

    def count(self, most, low=0):
        if self.random.random() < 0.75:
            return max(low, min(most, self.pick(0, 1, 2, 2, 3, 3, 4, 5, 7, 9)))
        return max(low, min(most, self.pick(most, most - 1, 255, 256, 257, self.random.randint(0, most))))

    def wanted(self):
        """What is wanted, and the kind of a page that meets it."""
        word = self.pick("free", "schema", "roots", "chain", "chain", "leaf", "leaf", "node", "node", "node")
        kind = self.pick(*KINDS[word])
        if word in ("free", "schema", "roots"):
            return [word], kind
        store = self.pick(0, 1, 255, 256, 65535, 65536, 131072, 196608, 16777216, self.random.randint(0, 2**32 - 1))
        key_size = self.pick(1, 1, 2, 4, 4, 6, 8, 14, 15, 207, self.random.randint(1, 207))
        width = min(1000, key_size + self.pick(0, 0, 1, 4, 8, 81, self.random.randint(0, 793)))
        return [word, str(store), str(key_size), str(width)], kind

    def body(self, wanted, kind):
        """The count and the body of a sound page."""
        if kind == 1:
            count = self.pick(1, 2, 17, 4079, 4080, self.random.randint(1, 4080))
            return count, self.random.randbytes(count)
        size, width = sizes(wanted, kind)
        count = self.count(min(BODY // width, 256**size), 2 if kind == 4 else 0)
        rows = []
        for front in self.keys(size, count, kind == 4):
            if kind in (4, 5):
                rows.append(front + self.pick(0, 1, 255, 256, 65535, self.random.randint(0, 65535)).to_bytes(4, "big"))
            else:
                rows.append(front + self.random.randbytes(width - size))
        return count, b"".join(rows)

    def sound(self, wanted, kind):
        """A page that is what is wanted."""
        if kind == 0:
            return bytearray(SIZE)
        count, body = self.body(wanted, kind)
        store = int(wanted[1]) if kind in (2, 3, 4) else 0
        following = 0 if kind == 4 else self.pick(0, 1, 255, 256, 65535)
        is_serial = kind in (2, 3, 4) and store < PAGES
        serial = self.pick(0, 1, 256, LAST_SERIAL) if is_serial else 0
        fields = b"".join(number.to_bytes(4, "big") for number in (store, following, serial))
        front = bytes([kind, 0]) + count.to_bytes(2, "big") + fields
        return bytearray((front + body).ljust(SIZE, b"\0"))

    def place(self, page, wanted, kind):
        """A place of a page: in its front, in a row, or near the end of what is counted."""
        count = int.from_bytes(page[2:4], "big")
        size, width = sizes(wanted, kind)
        end = min(SIZE, HEAD + count * width)
        row = HEAD + width * self.random.randrange(count) if count else HEAD
        below = self.random.randrange
        in_row = [row, row + size - 1, row + below(size), row + below(width), row + width - 1]
        places = [below(HEAD), below(HEAD), *in_row, end - 1, end, end + 1, below(SIZE), SIZE - 1]
        return self.pick(*(place for place in places if 0 <= place < SIZE))

    def change(self, page, wanted, kind):
        """Changes a byte or a number of a page, or puts a piece of it elsewhere."""
        at = self.place(page, wanted, kind)
        key_size, width = sizes(wanted, kind)
        match self.pick("byte", "byte", "up", "bit", "field", "field", "count", "limit", "child", "copy"):
            case "byte":
                page[at] = self.byte()[0]
            case "up":
                page[at] = (page[at] + self.pick(1, 255)) % 256
            case "bit":
                page[at] ^= 1 << self.random.randrange(8)
            case "field":
                at, size = self.pick((4, 4), (8, 4), (12, 4), (4, 4), (8, 4))
                number = self.pick(0, 1, 255, 256, 65535, 65536, 65537, 2**24, LAST_SERIAL)
                page[at : at + size] = number.to_bytes(size, "big")
            case "count":
                count = int.from_bytes(page[2:4], "big") + self.pick(-2, -1, 1, 2, 256, -256)
                page[2:4] = (count % 65536).to_bytes(2, "big")
            case "limit":
                count = self.pick(0, 1, 2, 255, 256, 257, BODY // width, BODY // width, BODY // width + 1)
                page[2:4] = count.to_bytes(2, "big")
            case "child":
                count = max(1, int.from_bytes(page[2:4], "big"))
                at = HEAD + width * self.random.randrange(count) + key_size
                number = self.pick(65535, 65536, 65536, 65537, 2**24, LAST_SERIAL)
                if at + 4 <= SIZE:
                    page[at : at + 4] = number.to_bytes(4, "big")
            case "copy":
                size = self.pick(1, 4, 8, key_size, width)
                there = self.place(page, wanted, kind)
                part = page[at : at + size][: SIZE - there]
                page[there : there + len(part)] = part

    def page(self):
        wanted, kind = self.wanted()
        page = self.sound(wanted, kind)
        asked = wanted
        if len(wanted) > 1 and self.random.random() < 0.05:
            asked = [self.pick("chain", "leaf", "node"), *wanted[1:]]
        for _ in range(self.pick(0, 1, 1, 1, 2, 2, 3)):
            self.change(page, wanted, kind)
        return " ".join(asked), bytes(page).rstrip(b"\0").hex() or "-"

    def text(self, limit):
        """A text of at most so many bytes."""
        size = self.pick(0, 1, limit - 1, limit, self.random.randint(0, limit))
        letters = "".join(self.pick(*LETTERS) for _ in range(size))
        return letters.encode()[:size].decode("utf-8", "ignore").encode()

    def value(self, kind):
        match kind.name:
            case "int":
                return self.pick(0, 1, -1, 2**63 - 1, -(2**63), self.random.randint(-(2**63), 2**63 - 1))
            case "bool":
                return self.pick(False, True)
            case "text":
                return self.text(kind.limit)
            case "entity":
                return self.pick(0, 1, 2, 3, 65535), self.pick(1, 255, 256, LAST_SERIAL)

    def field(self, field):
        """The bytes of a field."""
        word, kind = field
        if word == "serial":
            return self.pick(1, 2, 256, LAST_SERIAL).to_bytes(4, "big")
        if word == "key":
            return key(kind, self.value(kind))
        if self.random.random() < 0.3:
            return bytes(1 + kind.width)
        return b"\1" + key(kind, self.value(kind))

    def fields(self, fields):
        """The bytes of fields, as they are or changed at a place or a few."""
        parts = [self.field(field) for field in fields]
        data = bytearray(b"".join(parts))
        for _ in range(self.pick(0, 0, 1, 1, 2, 3)):
            number = self.random.randrange(len(parts))
            begin, size = sum(map(len, parts[:number])), len(parts[number])
            at = begin + self.pick(0, 0, 1, size - 1, size - 1, size // 2, self.random.randrange(size)) % size
            match self.pick("byte", "up", "zeros"):
                case "byte":
                    data[at] = self.byte()[0]
                case "up":
                    data[at] = (data[at] + self.pick(1, 255)) % 256
                case "zeros":
                    zeros = bytes(self.pick(1, size))
                    data[begin : begin + len(zeros)] = zeros
        return bytes(data).hex()

    def row(self):
        found = self.pick(*SCHEMAS)
        type_ = self.random.randrange(len(found.types))
        return written(found), f"{found.types[type_]} {self.fields(fields_of(found, type_))}"

    def kind(self):
        return Kind(self.pick("int", "bool", "entity", *(f"text:{limit}" for limit in (1, 2, 3, 4, 8, 80, 200))))

    def word(self, kind):
        return f"text:{kind.limit}" if kind.name == "text" else kind.name

    def pair(self):
        kind, order = self.kind(), self.pick("set", "turned")
        fields = [("key", Kind("entity")), ("key", kind)]
        if order == "turned":
            fields.reverse()
        return "", f"{self.word(kind)} {order} {self.fields(fields)}"

    def odd(self, kind):
        """A key with a text of odd bytes."""
        size = self.random.randint(1, kind.limit)
        front = b"".join(self.pick(*PIECES) for _ in range(size))[:size]
        return (front.ljust(kind.limit, b"\0") + bytes([size])).hex()

    def key(self):
        kind = self.kind()
        if kind.name == "text" and self.random.random() < 0.3:
            return "", f"{self.word(kind)} {self.odd(kind)}"
        return "", f"{self.word(kind)} {self.fields([('key', kind)])}"
