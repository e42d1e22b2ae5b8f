"""Random scripts over some schemas, drawn along a run so that most statements go through."""

import random

from language import (
    Abort, Add, Attribute, Condition, Delete, Ensure, Entity, EntityLiteral, Find, ForEach, Kind, Let, Literal,
    Make, Path, Print, Refused, Schema, Set, State, Take, Transaction, Variable,
)  # fmt: skip

INTEGER, BOOLEAN = Kind("integer"), Kind("boolean")
SIGNS = ["=", "/=", "<", "<=", ">", ">="]
# how often each statement is drawn
STATEMENTS = {
    Make: 26, Set: 12, Add: 9, Take: 4, Delete: 6, Find: 6, Ensure: 8, Let: 5, Print: 12, ForEach: 14, Abort: 1,
}  # fmt: skip
# how often a refused statement is kept, by its rule
KEPT = {1: 0.015, 2: 0.02, 3: 0.12, 4: 0.8, 5: 0.08, 6: 0.9, 7: 0.03, 8: 0.6, 10: 0.2, 11: 0.15}


def string(size):
    return Kind("string", size)


def entity(type_):
    return Kind("entity", type_)


def schema_of(name, types, attributes):
    """A schema of types, each a name and its parents, and of attributes: owner, name, kind, and what is on."""
    made = []
    for number, (owner, short, kind, flags) in enumerate(attributes):
        made.append(Attribute(number, owner, short, kind, **flags))
        made[-1].index = made[-1].index or made[-1].unique
    return Schema(name, types, made)


UNIQUE, NEEDED, INDEXED, MANY = {"unique": True}, {"no_nulls": True}, {"index": True}, {"many": True}
CLUB = schema_of("club", [("person", []), ("room", [])], [
    (0, "name", string(80), INDEXED), (0, "boss", entity(0), {"inverse": "reports"}),
    (1, "label", string(80), NEEDED), (1, "keeper", entity(0), NEEDED),
    (1, "users", entity(0), MANY | {"inverse": "rooms"}),
])  # fmt: skip
INSTITUTE = schema_of(
    "institute", [("unit", []), ("person", []), ("staff", [1]), ("student", [1]), ("room", []), ("project", [])], [
    (0, "code", string(8), UNIQUE | NEEDED), (0, "title", string(80), {}),
    (1, "badge", INTEGER, UNIQUE | NEEDED), (1, "name", string(80), INDEXED),
    (1, "unit", entity(0), {"inverse": "members"}),
    (2, "room", entity(4), {"inverse": "people"}), (2, "grade", INTEGER, {}),
    (3, "year", INTEGER, {}), (3, "tutor", entity(2), {"inverse": "students"}),
    (4, "label", string(8), UNIQUE), (4, "seats", INTEGER, {}),
    (5, "name", string(80), INDEXED), (5, "team", entity(1), MANY | {"inverse": "projects"}),
])  # fmt: skip
STAFF = schema_of("staff", [("person", []), ("student", [0])], [
    (0, "name", string(80), {}), (0, "age", INTEGER, {}), (1, "year", INTEGER, {}),
])  # fmt: skip
# values and sets of every kind, two parents, an inverse of a set, references that are needed or unique
STORE = schema_of("store", [("thing", []), ("box", [0]), ("tag", []), ("gift", [0, 2])], [
    (0, "code", string(3), UNIQUE), (0, "in", entity(1), {"inverse": "holds"}), (0, "good", BOOLEAN, {}),
    (1, "size", INTEGER, {}), (1, "marks", INTEGER, MANY), (1, "flags", BOOLEAN, MANY),
    (2, "about", entity(0), NEEDED | {"inverse": "tags"}), (2, "word", string(3), NEEDED),
    (3, "owner", entity(2), UNIQUE), (3, "words", string(2), MANY),
    (3, "parts", entity(0), MANY | {"inverse": "whole"}),
])  # fmt: skip
SCHEMAS = [CLUB, INSTITUTE, STAFF, STORE, STORE]


class Feature:
    """An attribute, or its inverse, as a statement may name it."""

    def __init__(self, schema, attribute, is_inverse):
        self.attribute, self.is_inverse = attribute, is_inverse
        self.name = schema.qualified_inverse(attribute) if is_inverse else schema.qualified(attribute)
        self.owner = attribute.kind.of if is_inverse else attribute.owner
        self.kind = entity(attribute.owner) if is_inverse else attribute.kind
        self.many = is_inverse or attribute.many


class Drawer:
    """Draws statements over a transaction that runs."""

    def __init__(self, seed):
        self.random = random.Random(seed)

    def chance(self, probability):
        return self.random.random() < probability

    def begin(self, state):
        """A transaction over a copy of a state."""
        self.run, self.schema, self.seen = Transaction(state.copy()), state.schema, {}
        self.features = [Feature(self.schema, a, False) for a in self.schema.attributes]
        self.features += [Feature(self.schema, a, True) for a in self.schema.attributes if a.inverse]

    # ---- terms

    def kind(self):
        return self.random.choice([INTEGER, BOOLEAN, string(80), entity(self.random.randrange(len(self.schema.types)))])

    def literal(self, kind):
        if kind.name == "integer":
            return Literal(self.random.choice([0, 1, 2, 3, -1, 7]))
        if kind.name == "boolean":
            return Literal(self.random.choice([True, False]))
        if kind.name == "string":
            if kind.of < 10 and self.chance(0.25):
                return Literal("x" * (kind.of + self.random.randint(0, 1)))
            return Literal(self.random.choice(["", "a", "A", "b"]))
        live = sorted(e for e in self.run.state.live if self.schema.isa(e.type, kind.of))
        if live and self.chance(0.9):
            found = self.random.choice(live)
        else:
            found = Entity(self.random.choice(self.schema.descendants(kind.of)), self.random.choice([1, 2, 9]))
        return EntityLiteral("zz" if self.chance(0.01) else self.schema.types[found.type], found.serial)

    def fits(self, value, kind):
        if isinstance(value, Entity):
            return kind.name == "entity" and self.schema.isa(value.type, kind.of)
        return value is None or {bool: "boolean", int: "integer", str: "string"}[type(value)] == kind.name

    def gives(self, feature, kind):
        """Whether a feature gives single values of a kind."""
        if feature.many or feature.kind.name != kind.name:
            return False
        return kind.name != "entity" or self.schema.isa(feature.kind.of, kind.of)

    def term(self, kind, depth=0):
        """A term that mostly is of a kind."""
        kind = self.kind() if self.chance(0.04) else kind
        known = self.run.variables | self.seen
        fitting = sorted(name for name, value in known.items() if self.fits(value, kind))
        where = self.random.random()
        if where < 0.08:
            return Literal(None)
        if where < 0.55 and fitting:
            return Variable(self.random.choice(fitting))
        if where < 0.6:
            return Variable(self.random.choice([*known, "zz"] if self.chance(0.2) else sorted(known) or ["zz"]))
        if where < 0.85 and depth < 2:
            giving = [f for f in self.features if self.gives(f, kind)]
            feature = self.random.choice(giving if giving and self.chance(0.95) else self.features)
            name = "zz.name" if self.chance(0.01) else feature.name
            return Path(name, self.term(entity(feature.owner), depth + 1))
        return self.literal(kind)

    def set_term(self):
        """A set, and the kind of its values."""
        feature = self.random.choice([f for f in self.features if f.many] or self.features)
        return Path(feature.name, self.term(entity(feature.owner), 1)), feature.kind

    def shown(self):
        return self.set_term()[0] if self.chance(0.35) else self.term(self.kind())

    # ---- statements

    def type_name(self):
        """The name of a type, and its position, which is of another one where the name is unknown."""
        type_ = self.random.randrange(len(self.schema.types))
        return "zz" if self.chance(0.01) else self.schema.types[type_], type_

    def cells(self, type_):
        attributes = list(self.schema.attributes if self.chance(0.02) else self.schema.attributes_of(type_))
        self.random.shuffle(attributes)
        cells = {}
        for a in attributes:
            wanted = 0.03 if a.many else (0.9 if a.no_nulls else 0.4)
            if self.chance(wanted) and a.name not in cells:
                cells[a.name] = self.term(a.kind)
        return cells

    def change(self, how):
        """A `set`, `add-to-set` or `delete-from-set`."""
        right = [f for f in self.features if not f.is_inverse and f.many == (how is not Set)]
        feature = self.random.choice(right if right and self.chance(0.95) else self.features)
        return how(feature.name, self.term(entity(feature.owner)), self.term(feature.kind))

    def query(self):
        name, type_ = self.type_name()
        var = self.random.choice("abpq")
        self.seen = {var: Entity(type_, 1)}
        query = ForEach(var, name, [], [], [])
        for _ in range(self.random.choice([0, 0, 1, 1, 2])):
            query.conditions.append(self.condition())
        for _ in range(self.random.choice([0, 0, 1, 1, 2])):
            query.keys.append((self.of_entity(var, type_), self.chance(0.5)))
        for _ in range(self.random.choice([0, 0, 1, 2])):
            query.shown.append(self.shown() if self.chance(0.4) else self.of_entity(var, type_))
        self.seen = {}
        return query

    def of_entity(self, var, type_):
        """Mostly a single value of the entity of a query."""
        features = [f for f in self.features if not f.many and self.schema.isa(type_, f.owner)]
        if features and self.chance(0.8):
            return Path(self.random.choice(features).name, Variable(var))
        return self.term(self.kind(), 1)

    def condition(self):
        kind, how = self.kind(), self.random.random()
        if how < 0.6:
            return Condition(self.random.choice(SIGNS), [self.term(kind), self.term(kind, 1)])
        if how < 0.8:
            return Condition(self.random.choice(["null", "not-null"]), [self.term(kind)])
        found, kind = self.set_term()
        return Condition("member", [self.term(kind, 1), found])

    def statement(self):
        how = self.random.choices(list(STATEMENTS), list(STATEMENTS.values()))[0]
        var = self.random.choice("abcpq")
        if how in (Set, Add, Take):
            return self.change(how)
        if how is Delete:
            return Delete(self.term(entity(self.random.randrange(len(self.schema.types))), 1))
        if how is Let:
            return Let(var, self.term(self.kind()))
        if how is Print:
            return Print([self.shown() for _ in range(self.random.randint(1, 3))])
        if how is ForEach:
            return self.query()
        if how is Abort:
            return Abort()
        name, type_ = self.type_name()
        cells = self.cells(type_)
        if how is Make:
            return Make(var, name, list(cells.items()))
        keys = [a for a in self.schema.attributes_of(type_) if a.unique]
        key = self.random.choice(keys if keys and self.chance(0.95) else self.schema.attributes)
        if how is Find:
            return Find(var, name, key.name, self.term(key.kind))
        cells.pop(key.name, None)
        return Ensure(var, name, [(key.name, self.term(key.kind)), *cells.items()])

    # ---- scripts

    def transaction(self, state):
        """A transaction, and the state behind it."""
        self.begin(state)
        statements, wanted = [], self.random.randint(3, 12)
        for _ in range(160):
            statement = self.statement()
            try:
                lines = self.run.step(statement)
            except Refused as refusal:
                if statements and self.chance(KEPT[refusal.rule]):
                    return [*statements, statement], state
                continue
            if len(lines) != 1 or not isinstance(statement, ForEach) or self.chance(0.3):
                statements.append(statement)
            if len(statements) == wanted:
                break
        return statements, self.run.state

    def script(self):
        """A schema and transactions over it."""
        schema = self.random.choice(SCHEMAS)
        state, transactions = State(schema), []
        for _ in range(self.random.choice([1, 2, 3])):
            statements, state = self.transaction(state)
            transactions.append(statements)
        return schema, transactions
