"""Random texts of scripts: in form, and broken at a place or two.

A text is drawn as a tree first: a token is a string, a list is a list. A break is a change of the tree, and
what breaks tokens is a change of the bytes.
"""

import copy
import random

WORDS = """make set add-to-set delete-from-set delete-entity find ensure let print for-each abort with-transaction where
order-by show = /= < <= > >= null not-null member asc desc client turns""".split()
STATEMENTS = WORDS[:11]
SIGNS = WORDS[15:21]
LONG = "abcdefghijklmnopqrstuvwxyz-1234"  # 31 bytes, as many as a name may have
NAMES = "a b c p q x person room name boss t nil a-b a- x9 a--1 make show asc member abort with-transaction".split()
NAMES.append(LONG)
NO_NAMES = """integer boolean string set-of null true false a.b :a -a +5 a_b a#1 9 -1 () (a) "a" a/b - x? a<b""".split()
NO_NAMES.append(f"{LONG}5")
NO_FEATURES = """a a.b.c .a a. . a..b null.a a.null a.string a.1 a.-b a.b#1 5 "a.b" (a.b) () member = a:b""".split()
NO_FEATURES += [f"{LONG}5.a", f"a.{LONG}5"]
NUMBERS = "0 1 -1 7 007 -0 -007 42 9223372036854775807 -9223372036854775808 00000000000000000000000000009".split()
NUMBERS.append("0" * 5000 + "7")
NO_NUMBERS = """9223372036854775808 -9223372036854775809 12a 1.5 -5- 9é 0x1 1_000 99999999999999999999999999
-9#1""".split()
TEXTS = ["", "a", "Ada", "A b", ";", "(", ")", "a;(b)", "\\n", '\\"', "\\\\", "\\\\n", "é", "\n", "\t", "\r", "\0"]
TEXTS += ["\x7f", "\ufeff", "\U0001f600", "# 5", "x" * 300]
ENTITIES = "a#1 person#42 room#4294967295 a-b#7 make#1 a#4294967294 nil#10".split()
ENTITIES.append(f"{LONG}#1")
NO_ENTITIES = """a#0 a#01 a#4294967296 a#10000000000 a#99999999999999999999 a# #1 # integer#1 null#1 a.b#1 a#1#1 a#-1
a#+1 a#1x a## a#1.5 -a#1 a#:1""".split()
NO_ENTITIES.append(f"{LONG}5#1")
NO_TERMS = ["a.b", "a.b.c", ":a", "+5", "-", "integer", "set-of", f"{LONG}5", "a_b", "=", "<", "a/b", *NO_ENTITIES]
BLANKS = [" ", " ", " ", " ", "  ", "\n", "\n  ", "\t", "\r\n", "\x0c", " \r ", ";c\n", ' ; ( " \\ é\n', ";\r ;\n"]
# bytes that no name has, that end one, or that are no text
ODD_BYTES = [b"\x00", b"\x0b", b"\x7f", b"\xff", b"\xc3", b"\xc3\xa9", b"\xed\xa0\x80", b"\xef\xbb\xbf"]
ODD_BYTES += [bytes([byte]) for byte in b"()\";\\'[,@$|~^`{%&"]
MOST_BYTES, MOST_STATEMENTS, MOST_OPEN_LISTS = 1048576, 4096, 64


def lists_of(tree):
    """The lists of a tree, itself first."""
    found = [tree]
    for item in tree:
        if isinstance(item, list):
            found += lists_of(item)
    return found


class Writer:
    """Draws texts."""

    def __init__(self, seed):
        self.random = random.Random(seed)

    def chance(self, probability):
        return self.random.random() < probability

    def some(self, how, *counts):
        """Items that are drawn one after another, as many as one of some counts."""
        return [how() for _ in range(self.random.choice(counts))]

    # ---- words and terms

    def name(self):
        if self.chance(0.1):
            return self.random.choice("abcdxyz") + "".join(self.some(lambda: self.random.choice("abz019-"), *range(31)))
        return self.random.choice(NAMES)

    def feature(self):
        return f"{self.name()}.{self.name()}"

    def literal(self):
        match self.random.randrange(4):
            case 0:
                if self.chance(0.3):
                    return str(self.random.randrange(-(2**63), 2**63))
                return self.random.choice(NUMBERS)
            case 1:
                return '"' + "".join(self.some(lambda: self.random.choice(TEXTS), 0, 1, 1, 2, 3)) + '"'
            case 2:
                return self.random.choice(["true", "false", "null"])
        if self.chance(0.3):
            return f"{self.name()}#{self.random.randrange(1, 2**32)}"
        return self.random.choice(ENTITIES)

    def path(self, depth=0):
        return [self.feature(), self.term(depth + 1)]

    def term(self, depth=0):
        where = self.random.random()
        if where < 0.35 and depth < 5:
            return self.path(depth)
        return self.name() if where < 0.65 else self.literal()

    # ---- statements

    def cells(self, *counts):
        names = dict.fromkeys(self.some(self.name, *counts))
        return [[name, self.term()] for name in names]

    def condition(self):
        how = self.random.random()
        if how < 0.6:
            return [self.random.choice(SIGNS), self.term(), self.term()]
        if how < 0.8:
            return [self.random.choice(["null", "not-null"]), self.term()]
        return ["member", self.term(), self.term()]

    def key(self):
        return [self.term(), self.random.choice(["asc", "desc"])]

    def query(self):
        parts = []
        for word, how, counts in [
            ("where", self.condition, [1, 1, 2, 3, 8]),
            ("order-by", self.key, [1, 1, 2, 4]),
            ("show", self.term, [1, 2, 3, 16]),
        ]:
            if self.chance(0.6):
                parts.append([word, *self.some(how, *counts)])
        return ["for-each", [self.name(), self.name()], *parts]

    def statement(self):
        word = self.random.choice([*STATEMENTS, "for-each", "for-each", "make", "ensure"])
        match word:
            case "make":
                return [word, self.name(), self.name(), *self.cells(0, 1, 2, 3, 5)]
            case "ensure":
                return [word, self.name(), self.name(), *self.cells(1, 2, 3, 5)]
            case "set" | "add-to-set" | "delete-from-set":
                return [word, self.path(), self.term()]
            case "delete-entity":
                return [word, self.term()]
            case "find":
                return [word, self.name(), self.name(), self.name(), self.term()]
            case "let":
                return [word, self.name(), self.term()]
            case "print":
                return [word, *self.some(self.term, 1, 1, 2, 3)]
            case "for-each":
                return self.query()
        return [word]

    def transaction(self, depth=0):
        items = []
        for _ in range(self.random.choice([0, 1, 1, 2, 3, 4])):
            is_inner = depth < 3 and self.chance(0.15)
            items.append(self.transaction(depth + 1) if is_inner else self.statement())
        return ["with-transaction", *items]

    # ---- breaks of a tree

    def any_list(self, tree, wanted=lambda it: True):
        """A list of a tree that is wanted, None where there is none; the tree itself seldom."""
        found = [it for it in lists_of(tree)[0 if self.chance(0.05) else 1 :] if wanted(it)]
        return self.random.choice(found) if found else None

    def headed(self, tree, *words):
        """A list that begins with one of some words."""
        return self.any_list(tree, lambda it: it and it[0] in words)

    def list_or_statement(self, tree):
        return self.headed(tree, *STATEMENTS) if self.chance(0.4) else self.any_list(tree)

    def other_shape(self):
        return copy.deepcopy(self.random.choice([
            "5", '"s"', "a", "a.b", "a#1", "null", [], ["a"], [[]], ["a.b", "x"], ["a", "5"], ["abort"], ["print", "1"],
            ["=", "1", "2"], ["show", "p"], ["with-transaction"], ["with-transaction", "5"], ["p", "t"],
        ]))  # fmt: skip

    def place(self, items):
        return self.random.randrange(len(items))

    def drop(self, tree):
        items = self.any_list(tree)
        if items:
            del items[self.place(items)]

    def cut(self, tree):
        """Leaves the front of a list alone."""
        items = self.list_or_statement(tree)
        if items and len(items) > 1:
            del items[self.random.randrange(1, len(items)) :]

    def double(self, tree):
        items = self.any_list(tree)
        if items:
            place = self.place(items)
            items.insert(place, copy.deepcopy(items[place]))

    def move(self, tree):
        """Moves an item to another place, of the same list or another one."""
        items = self.any_list(tree)
        if items:
            item = items.pop(self.place(items))
            other = items if self.chance(0.4) else self.any_list(tree) or items
            other.insert(self.random.randint(0, len(other)), item)

    def swap(self, tree):
        items, others = self.any_list(tree), self.any_list(tree)
        if items and others:
            place, other = self.place(items), self.place(others)
            item, another = copy.deepcopy(items[place]), copy.deepcopy(others[other])
            others[other], items[place] = item, another

    def reshape(self, tree):
        items = self.any_list(tree)
        if items:
            place = self.place(items)
            item = items[place]
            if isinstance(item, list) and self.chance(0.2):
                items[place : place + 1] = item
            else:
                items[place] = [item] if self.chance(0.2) else self.other_shape()

    def put_too_much(self, tree):
        items = self.list_or_statement(tree)
        if items is not None:
            more = self.random.choice([self.other_shape, self.term, self.statement, self.condition, self.key])()
            items.insert(len(items) if self.chance(0.7) else self.random.randint(0, len(items)), more)

    def put_bad_word(self, tree):
        """A word that is none where one stands: a name, a feature, or what begins a term."""
        items = self.any_list(tree, lambda it: len(it) > 1)
        if items:
            place = self.random.randrange(1, len(items)) if self.chance(0.8) else 0
            bad = self.random.choice([NO_NAMES, NO_FEATURES, NO_TERMS, NO_TERMS, NO_ENTITIES])
            items[place] = self.random.choice(bad)

    def put_bad_head(self, tree):
        items = self.any_list(tree, lambda it: it and isinstance(it[0], str))
        if items:
            words = NO_FEATURES if "." in items[0] else NO_NAMES if self.chance(0.3) else WORDS
            items[0] = self.random.choice(words) if self.chance(0.9) else self.other_shape()

    def put_bad_name(self, tree):
        """A name that is none where a name stands: a variable, a type, an attribute."""
        items = self.headed(tree, "make", "ensure", "find", "let", "for-each")
        if items and len(items) > 2:
            if items[0] == "for-each" and isinstance(items[1], list) and items[1]:
                items[1][self.place(items[1])] = self.random.choice(NO_NAMES)
            elif items[0] in ("make", "ensure") and isinstance(items[-1], list) and items[-1]:
                items[-1][0] = self.random.choice(NO_NAMES)
            else:
                items[self.random.choice([1, 2, -1])] = self.random.choice(NO_NAMES)

    def repeat_cell(self, tree):
        items = self.headed(tree, "make", "ensure")
        if items and len(items) > 3 and isinstance(items[3], list) and items[3]:
            place = self.random.randint(4, len(items))
            again = [items[3][0].upper() if isinstance(items[3][0], str) else "a"]
            again += self.some(self.term, 0, 1, 1, 1, 2) if self.chance(0.8) else [self.random.choice(NO_TERMS)]
            items.insert(place, again)

    def put_over_a_limit(self, tree):
        """Fills a part of a query up to its limit, and an item or two past it."""
        items = self.headed(tree, "where", "order-by", "show")
        if items:
            most, how = {"where": (8, self.condition), "order-by": (4, self.key), "show": (16, self.term)}[items[0]]
            while len(items) <= most:
                items.append(how())
            items += self.some(lambda: self.random.choice([how, self.other_shape])(), 0, 1, 1, 2)

    def change_parts(self, tree):
        """Puts a part of a query once more, or others in their place."""
        items = self.headed(tree, "for-each")
        if items and len(items) > 1:
            if self.chance(0.5):
                parts = items[2:]
                self.random.shuffle(parts)
                items[2:] = parts
            part = self.random.choice([["show", "p"], ["where", ["null", "p"]], ["order-by", ["p", "asc"]], ["where"],
                                       ["order-by"], ["show"], "show", ["group-by", "p"]])  # fmt: skip
            items.insert(self.random.randint(2, len(items)), copy.deepcopy(part))

    def quote(self, tree):
        """Puts a word between quotes, so that it is a text."""
        items = self.any_list(tree)
        if items:
            place = self.place(items) if self.chance(0.5) else 0
            if isinstance(items[place], str) and '"' not in items[place]:
                items[place] = f'"{items[place]}"'

    def put_bad_number(self, tree):
        items = self.any_list(tree)
        if items:
            items[self.place(items)] = self.random.choice(NO_NUMBERS)

    def deepen(self, tree):
        """Nests a term in so many paths that it is at the limit of open lists, or past it."""
        items = self.headed(tree, "print", "let", "delete-entity")
        if items and len(items) > 1:
            for _ in range(self.random.randint(MOST_OPEN_LISTS - 4, MOST_OPEN_LISTS + 1)):
                items[-1] = ["a.b", items[-1]]

    def broken(self, tree):
        ways = {
            self.drop: 12, self.cut: 16, self.double: 8, self.move: 8, self.swap: 6, self.reshape: 14,
            self.put_too_much: 12, self.put_bad_word: 12, self.put_bad_head: 8, self.put_bad_name: 8,
            self.repeat_cell: 8, self.put_over_a_limit: 7, self.change_parts: 8, self.put_bad_number: 3,
            self.deepen: 4, self.quote: 4,
        }  # fmt: skip
        tree = copy.deepcopy(tree)
        for way in self.random.choices(list(ways), list(ways.values()), k=self.random.choice([1, 1, 1, 2])):
            way(tree)
        return tree

    # ---- many statements

    def many(self):
        """A transaction about as long as one may be, most of whose items are alike."""
        item = self.random.choice([["abort"], ["abort"], ["print", "1"], "5", [], ["foo"]])
        items = [item] * (MOST_STATEMENTS + self.random.choice([-1, 0, 0, 1, 1, 2, 5]))
        for _ in range(self.random.choice([0, 1, 2, 3])):
            # inner transactions, which count as their items
            start = self.place(items)
            end = self.random.randint(start, min(start + 50, len(items)))
            items[start:end] = [["with-transaction", *items[start:end]]]
        if self.chance(0.3):
            items[self.place(items)] = self.random.choice([self.statement, self.transaction, self.other_shape])()
        return ["with-transaction", *items]

    # ---- layout

    def blank(self):
        return self.random.choice(BLANKS)

    def token(self, token):
        if not token.startswith('"') and self.chance(0.04):
            return token.upper()
        return token

    def laid_out(self, tree, is_wide):
        """A tree's items as text, with blanks where they are wanted and elsewhere as they come."""
        pieces = []
        for item in tree:
            is_list = isinstance(item, list)
            piece = f"({self.laid_out(item, is_wide)})" if is_list else self.token(item)
            if pieces and (pieces[-1][-1] not in ')"' and piece[0] not in '("' or self.chance(0.9)):
                pieces.append(self.blank() if is_wide else " ")
            elif is_wide and self.chance(0.3):
                pieces.append(self.blank())
            pieces.append(piece)
        if is_wide and self.chance(0.2):
            pieces.append(self.blank())
        return "".join(pieces)

    def garbled(self, text):
        """Bytes of which some are gone, odd or at another place."""
        place = self.random.randint(0, len(text))
        match self.random.randrange(6):
            case 0:
                return text[:place]
            case 1:
                return text[:place] + text[place + 1 :]
            case 2:
                return text[:place] + b"\\" + self.random.choice([b"n", b"t", b'"', b"\\", b"\n", b""]) + text[place:]
            case 3:
                return text[:place] + self.random.choice([b"(", b")", b'"']) + text[place:]
        odd = self.random.choice(ODD_BYTES)
        return text[:place] + odd + text[place + self.random.randint(0, 1) :]

    def lengthened(self, text):
        """An input about as long as one may be."""
        wanted = MOST_BYTES + self.random.choice([-1, 0, 0, 1, 1, 2, 1000])
        more = wanted - len(text)
        filling = self.random.choice([b" " * more, b";" + b"x" * (more - 1), b";" + b"\xff" * (more - 2) + b"\n"])
        return text + filling if self.chance(0.5) or filling[-1:] == b"x" else filling + text

    # ---- inputs

    def forms(self):
        """The forms of an input: scripts, or one query or transaction with seldom a form before or behind it."""
        how = self.random.random()
        if how < 0.5:
            return self.some(self.transaction, 0, 1, 1, 2, 3)
        forms = [self.query() if how < 0.75 else self.transaction()]
        if self.chance(0.1):
            more = self.random.choice([self.query, self.transaction, self.statement, self.other_shape])()
            forms.insert(self.random.randint(0, 1), more)
        return forms

    def next(self):
        """An input."""
        forms = self.forms()
        if self.chance(0.02):
            forms.insert(self.random.randint(0, len(forms)), self.many())
        if self.chance(0.7):
            forms = self.broken(forms)
        text = self.laid_out(forms, self.chance(0.5)).encode()
        if self.chance(0.1):
            text = self.garbled(text)
        return self.lengthened(text) if self.chance(0.003) else text
