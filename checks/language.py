"""A model of the language: schemas by number, states, statements, and what they print.

It restates the rules of the manual in docs/reference, and shares nothing with the program nor with the
definitions that the program is proved against, so that both can be compared with it. It is slow and plain.

A value is None, an int, a bool, a str or an Entity. A set is a list of values in order.
"""

import functools
from dataclasses import dataclass, field
from typing import NamedTuple

LAST_SERIAL = 4294967295


class Entity(NamedTuple):
    """An entity: the position of its type, and its number."""

    type: int
    serial: int


class Kind(NamedTuple):
    """What an attribute takes: `integer`, `boolean`, `string` with its bytes, `entity` with its type."""

    name: str
    of: int = 0


@dataclass
class Attribute:
    number: int
    owner: int
    name: str
    kind: Kind
    many: bool = False
    inverse: str | None = None
    unique: bool = False
    no_nulls: bool = False
    index: bool = False


class Schema:
    """A schema; its types are pairs of a name and the positions of the parents."""

    def __init__(self, name, types, attributes):
        self.name = name
        self.types = [name for name, _ in types]
        self.parents = [parents for _, parents in types]
        self.attributes = attributes
        # what each type is of: itself, its parents and what these are of, which stand before it
        self.above = []
        for type_, parents in enumerate(self.parents):
            self.above.append({type_}.union(*(self.above[parent] for parent in parents)))

    def isa(self, type_, ancestor):
        return ancestor in self.above[type_]

    def descendants(self, type_):
        return [other for other in range(len(self.types)) if self.isa(other, type_)]

    def attributes_of(self, type_):
        return [a for a in self.attributes if self.isa(type_, a.owner)]

    def attribute_of(self, type_, name):
        return next((a for a in self.attributes_of(type_) if a.name == name), None)

    def qualified(self, attribute):
        return f"{self.types[attribute.owner]}.{attribute.name}"

    def qualified_inverse(self, attribute):
        return f"{self.types[attribute.kind.of]}.{attribute.inverse}"

    def type_named(self, name):
        return self.types.index(name) if name in self.types else None

    def feature(self, name):
        """The attribute of a qualified name, and whether the name is its inverse's; or None."""
        for a in self.attributes:
            if name == self.qualified(a):
                return a, False
            if a.inverse and name == self.qualified_inverse(a):
                return a, True
        return None


# ---- what is written


@dataclass(frozen=True)
class Literal:
    value: object


@dataclass(frozen=True)
class EntityLiteral:
    type: str
    serial: int


@dataclass(frozen=True)
class Variable:
    name: str


@dataclass(frozen=True)
class Path:
    feature: str
    inner: object


@dataclass
class Make:
    var: str
    type: str
    cells: list  # of pairs: a short name and a term


@dataclass
class Set:
    feature: str
    target: object
    value: object


@dataclass
class Add(Set):
    pass


@dataclass
class Take(Set):
    pass


@dataclass
class Delete:
    target: object


@dataclass
class Find:
    var: str
    type: str
    key: str
    value: object


@dataclass
class Ensure(Make):
    pass


@dataclass
class Let:
    var: str
    value: object


@dataclass
class Print:
    terms: list


@dataclass
class Condition:
    sign: str  # a sign of comparison, `null`, `not-null` or `member`
    terms: list


@dataclass
class ForEach:
    var: str
    type: str
    conditions: list
    keys: list  # of pairs: a term, and whether it is descending
    shown: list


@dataclass
class Abort:
    pass


def beginning(term):
    """What a term begins with, inside all its features."""
    while isinstance(term, Path):
        term = term.inner
    return term


def terms_of(statement):
    """The terms of a statement, in the order of the text."""
    match statement:
        case Make():
            return [term for _, term in statement.cells]
        case Set():
            return [statement.target, statement.value]
        case Delete():
            return [statement.target]
        case Find() | Let():
            return [statement.value]
        case Print():
            return statement.terms
        case ForEach():
            conditions = [term for condition in statement.conditions for term in condition.terms]
            return conditions + [term for term, _ in statement.keys] + statement.shown
    return []


# ---- values


def kind_place(value):
    """The place of a value's kind: null, integers, truth values, texts, entities."""
    if isinstance(value, bool):
        return 2
    return {type(None): 0, int: 1, str: 3, Entity: 4}[type(value)]


def compare(a, b):
    """Below 0, 0 or above 0, as one value stands before another, is the same, or stands behind it."""
    if kind_place(a) != kind_place(b):
        return kind_place(a) - kind_place(b)
    if a is None:
        return 0
    if isinstance(a, str):
        a, b = a.encode(), b.encode()
    return (a > b) - (a < b)


def printed(schema, meaning):
    if isinstance(meaning, list):
        return "{" + " ".join(printed(schema, value) for value in meaning) + "}"
    match meaning:
        case None:
            return "null"
        case bool():
            return "true" if meaning else "false"
        case Entity():
            return f"{schema.types[meaning.type]}#{meaning.serial}"
        case str():
            escaped = meaning.replace("\\", "\\\\").replace('"', '\\"').replace("\n", "\\n")
            return f'"{escaped}"'
    return str(meaning)


# ---- states


@dataclass
class State:
    schema: Schema
    live: set = field(default_factory=set)
    single: dict = field(default_factory=dict)  # from an attribute's number and an entity to the value
    sets: dict = field(default_factory=dict)  # from the same to a list of values
    last: list = field(default_factory=list)

    def __post_init__(self):
        self.last = self.last or [0] * len(self.schema.types)

    def copy(self):
        sets = {key: list(values) for key, values in self.sets.items()}
        return State(self.schema, set(self.live), dict(self.single), sets, list(self.last))

    def value(self, attribute, entity):
        return self.single.get((attribute.number, entity))

    def members(self, attribute, entity):
        values = self.sets.get((attribute.number, entity), [])
        return sorted(values, key=functools.cmp_to_key(compare))

    def holders(self, attribute, value):
        """The entities that have a value, or have it in their set, in order."""
        if value is None:
            return []
        has = self.members if attribute.many else lambda a, e: [self.value(a, e)]
        return [e for e in sorted(self.live) if any(compare(v, value) == 0 for v in has(attribute, e))]

    def set(self, attribute, entity, value):
        if value is None:
            self.single.pop((attribute.number, entity), None)
        else:
            self.single[attribute.number, entity] = value

    def make(self, type_):
        self.last[type_] += 1
        entity = Entity(type_, self.last[type_])
        self.live.add(entity)
        return entity

    def delete(self, entity):
        self.live.discard(entity)
        self.single = {k: v for k, v in self.single.items() if k[1] != entity and v != entity}
        self.sets = {k: [v for v in vs if v != entity] for k, vs in self.sets.items() if k[1] != entity}


class Refused(Exception):
    """A statement is refused: the number of the rule, and its fields."""

    def __init__(self, rule, *fields):
        super().__init__(rule, *fields)
        self.rule, self.fields = rule, fields

    def printed(self, schema):
        fields = (printed(schema, f) if isinstance(f, Entity) else str(f) for f in self.fields)
        return " ".join([str(self.rule), *fields])


# ---- kinds, which are checked before anything is evaluated


class Shape(NamedTuple):
    """What a term gives: one value or a set; of a sort, `null` where it is null; of a type, if of entities."""

    many: bool
    sort: str
    type: int = 0


def shape_of_value(value):
    if isinstance(value, Entity):
        return Shape(False, "entity", value.type)
    return Shape(False, ["null", "integer", "boolean", "string"][kind_place(value)])


def anything(_):
    return True


def one(shape):
    return not shape.many


def is_comparable(shape, other):
    return "null" in (shape.sort, other.sort) or shape.sort == other.sort


class Checker:
    """The pass over a statement's text: names that are not there, kinds that do not fit, no sets."""

    def __init__(self, schema, variables):
        self.schema = schema
        self.known = {name: shape_of_value(value) for name, value in variables.items()}

    def storable(self, kind):
        """The test of a value that an attribute of a kind is to have."""

        def fits(shape):
            if shape.many or shape.sort not in ("null", kind.name):
                return False
            return shape.sort != "entity" or self.schema.isa(shape.type, kind.of)

        return fits

    def entity_of(self, type_):
        return self.storable(Kind("entity", type_))

    def head(self, term):
        """The shape of a term, by what stands first in it."""
        match term:
            case Literal():
                return shape_of_value(term.value)
            case EntityLiteral():
                return Shape(False, "entity", self.type_named(term.type))
            case Variable():
                if term.name not in self.known:
                    raise Refused(1, term.name)
                return self.known[term.name]
        attribute, is_inverse = self.feature(term.feature)
        if is_inverse:
            return Shape(True, "entity", attribute.owner)
        return Shape(attribute.many, attribute.kind.name, attribute.kind.of)

    def term(self, term, fits):
        """Judges a term in its place, an outer form before its parts."""
        shape = self.head(term)
        if not fits(shape):
            raise Refused(2)
        if isinstance(term, Path):
            attribute, is_inverse = self.feature(term.feature)
            self.term(term.inner, self.entity_of(attribute.kind.of if is_inverse else attribute.owner))
        return shape

    def feature(self, name):
        found = self.schema.feature(name)
        if found is None:
            raise Refused(1, name)
        return found

    def type_named(self, name):
        found = self.schema.type_named(name)
        if found is None:
            raise Refused(1, name)
        return found

    def cell(self, type_, name, term, is_key=False):
        attribute = self.schema.attribute_of(type_, name)
        if attribute is None:
            raise Refused(1, name)
        if attribute.many or (is_key and not attribute.unique):
            raise Refused(2)
        self.term(term, self.storable(attribute.kind))

    def change(self, statement):
        """A `set`, `add-to-set` or `delete-from-set`."""
        attribute, is_inverse = self.feature(statement.feature)
        if isinstance(statement, (Add, Take)):
            if is_inverse or not attribute.many:
                raise Refused(7, statement.feature)
        elif is_inverse or attribute.many:
            raise Refused(2)
        self.term(statement.target, self.entity_of(attribute.owner))
        self.term(statement.value, self.storable(attribute.kind))

    def condition(self, condition):
        left = self.term(condition.terms[0], one)
        wants_set = condition.sign == "member"
        for right in condition.terms[1:]:
            self.term(right, lambda s: s.many == wants_set and is_comparable(left, s))

    def query(self, query):
        self.known[query.var] = Shape(False, "entity", self.type_named(query.type))
        for condition in query.conditions:
            self.condition(condition)
        for term, _ in query.keys:
            self.term(term, one)
        for term in query.shown:
            self.term(term, anything)

    def statement(self, statement):
        match statement:
            case Make():
                type_ = self.type_named(statement.type)
                for place, (name, term) in enumerate(statement.cells):
                    self.cell(type_, name, term, isinstance(statement, Ensure) and place == 0)
            case Set():
                self.change(statement)
            case Delete():
                self.term(statement.target, lambda s: not s.many and s.sort in ("null", "entity"))
            case Find():
                self.cell(self.type_named(statement.type), statement.key, statement.value, True)
            case Let():
                self.term(statement.value, one)
            case Print():
                for term in statement.terms:
                    self.term(term, anything)
            case ForEach():
                self.query(statement)


# ---- statements


class Filling(NamedTuple):
    """An attribute that is to have a value, and whether it has to be one."""

    attribute: Attribute
    value: object
    wanted: bool


class Transaction:
    """A transaction as it runs over a state, which it changes."""

    def __init__(self, state):
        self.state, self.schema, self.variables = state, state.schema, {}

    def meaning(self, term, variables=None):
        """What a term stands for: a value or a set."""
        variables = self.variables if variables is None else variables
        match term:
            case Literal():
                return term.value
            case EntityLiteral():
                return Entity(self.schema.type_named(term.type), term.serial)
            case Variable():
                return variables[term.name]
        inner = self.meaning(term.inner, variables)
        attribute, is_inverse = self.schema.feature(term.feature)
        if is_inverse:
            return self.state.holders(attribute, inner)
        if attribute.many:
            return [] if inner is None else self.state.members(attribute, inner)
        return None if inner is None else self.state.value(attribute, inner)

    def holder(self, type_, key, value):
        """The entity of a type, descendants included, whose attribute has a value."""
        found = self.state.holders(self.schema.attribute_of(type_, key), value)
        return next((e for e in found if self.schema.isa(e.type, type_)), None)

    def found(self, ensure):
        """The entity that an `ensure` finds."""
        key, term = ensure.cells[0]
        return self.holder(self.schema.type_named(ensure.type), key, self.meaning(term))

    def fillings(self, statement):
        """The attributes that a statement gives values, in the order of the type's; and of which entity."""
        if isinstance(statement, Set):
            attribute, _ = self.schema.feature(statement.feature)
            value = self.meaning(statement.value)
            if isinstance(statement, (Add, Take)):
                return None, [Filling(attribute, value, True)]
            return self.meaning(statement.target), [Filling(attribute, value, attribute.no_nulls)]
        if not isinstance(statement, Make):
            return None, []
        attributes = self.schema.attributes_of(self.schema.type_named(statement.type))
        cells = {name: self.meaning(term) for name, term in statement.cells}
        key = statement.cells[0][0] if isinstance(statement, Ensure) else None
        entity = self.found(statement) if key else None
        if entity:
            given = [a for a in attributes if a.name in cells and a.name != key]
            return entity, [Filling(a, cells[a.name], a.no_nulls) for a in given]
        single = [a for a in attributes if not a.many]
        return None, [Filling(a, cells.get(a.name), a.no_nulls or a.name == key) for a in single]

    def check(self, statement):
        """Refuses a statement by the first rule that does."""
        if isinstance(statement, Abort):
            raise Refused(10)
        Checker(self.schema, self.variables).statement(statement)
        self.check_live(statement)
        if isinstance(statement, (Set, Delete)) and self.meaning(statement.target) is None:
            raise Refused(11)
        self.check_values(statement)
        if isinstance(statement, Delete):
            self.check_needed(self.meaning(statement.target))
        if isinstance(statement, Make) and not (isinstance(statement, Ensure) and self.found(statement)):
            if self.state.last[self.schema.type_named(statement.type)] == LAST_SERIAL:
                raise Refused(9, statement.type)

    def check_live(self, statement):
        hidden = Variable(statement.var) if isinstance(statement, ForEach) else None
        for term in map(beginning, terms_of(statement)):
            if term != hidden:
                value = self.meaning(term)
                if isinstance(value, Entity) and value not in self.state.live:
                    raise Refused(5, value)

    def check_values(self, statement):
        entity, fillings = self.fillings(statement)
        for attribute, value, _ in fillings:
            if isinstance(value, str) and not isinstance(statement, Take):
                if len(value.encode()) > attribute.kind.of:
                    raise Refused(8, len(value.encode()), attribute.kind.of)
        for attribute, value, wanted in fillings:
            if wanted and value is None:
                raise Refused(3, self.schema.qualified(attribute))
        for attribute, value, _ in fillings:
            if attribute.unique:
                for other in self.state.holders(attribute, value):
                    if other != entity:
                        raise Refused(4, self.schema.qualified(attribute), other)

    def check_needed(self, entity):
        for attribute in self.schema.attributes:
            if attribute.no_nulls:
                for other in self.state.holders(attribute, entity):
                    if other != entity:
                        raise Refused(6, other, self.schema.qualified(attribute))

    def step(self, statement):
        """Runs a statement: what its lines say behind the turn. A refused one changes nothing."""
        self.check(statement)
        match statement:
            case Make():
                self.make(statement)
            case Set():
                self.change(statement)
            case Delete():
                self.state.delete(self.meaning(statement.target))
            case Find():
                type_ = self.schema.type_named(statement.type)
                self.variables[statement.var] = self.holder(type_, statement.key, self.meaning(statement.value))
            case Let():
                self.variables[statement.var] = self.meaning(statement.value)
            case Print():
                return [self.line("=", statement.terms, self.variables)]
            case ForEach():
                return self.query(statement)
        return []

    def make(self, statement):
        type_ = self.schema.type_named(statement.type)
        values = [(name, self.meaning(term)) for name, term in statement.cells]
        entity = self.found(statement) if isinstance(statement, Ensure) else None
        if entity:
            values = values[1:]
        else:
            entity = self.state.make(type_)
        for name, value in values:
            self.state.set(self.schema.attribute_of(type_, name), entity, value)
        self.variables[statement.var] = entity

    def change(self, statement):
        attribute, _ = self.schema.feature(statement.feature)
        entity, value = self.meaning(statement.target), self.meaning(statement.value)
        if not isinstance(statement, (Add, Take)):
            self.state.set(attribute, entity, value)
            return
        others = [v for v in self.state.members(attribute, entity) if compare(v, value) != 0]
        more = [value] if isinstance(statement, Add) else []
        self.state.sets[attribute.number, entity] = others + more

    def line(self, mark, terms, variables):
        return " ".join([mark, *(printed(self.schema, self.meaning(term, variables)) for term in terms)])

    def holds(self, condition, variables):
        meanings = [self.meaning(term, variables) for term in condition.terms]
        match condition.sign, meanings:
            case "null", [value]:
                return value is None
            case "not-null", [value]:
                return value is not None
            case "member", [value, values]:
                return value is not None and any(compare(value, other) == 0 for other in values)
            case _, [left, right] if left is None or right is None:
                return False
        order = compare(*meanings)
        signs = {"=": order == 0, "/=": order != 0, "<": order < 0, "<=": order <= 0, ">": order > 0, ">=": order >= 0}
        return signs[condition.sign]

    def query(self, query):
        type_ = self.schema.type_named(query.type)
        seen = [(e, self.variables | {query.var: e}) for e in self.state.live if self.schema.isa(e.type, type_)]
        found = [(e, v) for e, v in seen if all(self.holds(c, v) for c in query.conditions)]

        def order(one_, other):
            for term, is_descending in query.keys:
                a, b = self.meaning(term, one_[1]), self.meaning(term, other[1])
                result = compare(a, b)
                if result:
                    return -result if is_descending and a is not None and b is not None else result
            return compare(one_[0], other[0])

        found.sort(key=functools.cmp_to_key(order))
        lines = [self.line("*", [Literal(e), *query.shown], v) for e, v in found]
        return [*lines, f". {len(found)}"]


def run(schema, transactions):
    """What a client prints that runs transactions one after another over an empty database; the rules that refused."""
    state, turn, commits, lines, rules = State(schema), 1, 0, [], []
    for number, statements in enumerate(transactions, 1):
        transaction = Transaction(state.copy())
        try:
            for statement in statements:
                lines += [f"{turn} 1.{number} {line}" for line in transaction.step(statement)]
                turn += 1
            state, commits = transaction.state, commits + 1
            lines.append(f"{turn} 1.{number} commit {commits}")
        except Refused as refusal:
            lines.append(f"{turn} 1.{number} refused {commits} {refusal.printed(schema)}")
            rules.append(refusal.rule)
        turn += 1
    return lines, rules


def script_lines(schema, transactions):
    """What a client prints that runs transactions one after another over an empty database."""
    return run(schema, transactions)[0]
