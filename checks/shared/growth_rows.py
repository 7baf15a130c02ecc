"""Hostile requests whose cost grows with their size: what is made of many, and by how much its cost may grow."""
from typing import Callable, NamedTuple

from shared import checked_responses as checked
from shared import hostile_requests as requests
from shared import hostile_texts as texts
from shared.hostile_requests import ANSWERED, REFUSED, fields, request


class Row(NamedTuple):
    """A request that is made of so many things, and of twice as many.

    The second may take `growth` times the instructions of the first, and at most so many instructions and bytes of memory for each of
    its bytes."""

    name: str
    make: Callable[[int], bytes]
    size: int
    growth: float
    instructions: int
    memory: int
    status: int = ANSWERED
    program: str = "gql_program"


def numbered(form, count):
    """The form for each number, with blanks between."""
    return " ".join(form.format(number) for number in range(count))


def names(letter, count):
    return [f"{letter}{number}" for number in range(count)]


def all_different(count):
    """So many fields of one key, each two of which conflict."""
    return request("type Query{f(a:Int):Int}", "{" + numbered("x:f(a:{})", count) + "}")


def apart(count):
    """Different fields of one key, each on a type of its own: none conflict."""
    types = numbered("type A{0} implements I{{x:Int y{0}:Int}}", count)
    on_each = numbered("...on A{0}{{k:y{0}}}", count)
    return request(f"interface I{{x:Int}}type Query{{i:I}}{types}", f"{{i{{{on_each}}}}}", data={"i": {"__typename": "A1"}})


def union_schema(count):
    """A union of so many types."""
    return f"union U={'|'.join(names('A', count))} {numbered('type A{}{{x:Int}}', count)} type Query{{u:[U]}}"


def members_selected(count):
    """Each member of a union is selected on."""
    query = "{u{" + numbered("...on A{}{{x}}", count) + "}}"
    return request(union_schema(count), query, data={"u": [{"__typename": "A1", "x": 1}]})


def members_resolved(count):
    """A list has an object of each member of a union."""
    return request(union_schema(count), "{u{__typename}}", data={"u": [{"__typename": name} for name in names("A", count)]})


def interface_schema(count):
    """An interface that so many types implement."""
    return f"interface I{{x:Int}}type Query{{i:[I]}}{numbered('type A{} implements I{{x:Int}}', count)}"


def implementers_selected(count):
    """Each type that implements an interface is selected on."""
    query = "{i{" + numbered("...on A{}{{x}}", count) + "}}"
    return request(interface_schema(count), query, data={"i": [{"__typename": "A1", "x": 1}]})


def implementers_resolved(count):
    """A list has an object of each type that implements an interface."""
    return request(interface_schema(count), "{i{x}}", data={"i": [{"__typename": name, "x": 1} for name in names("A", count)]})


def interfaces_listed(count):
    """A type lists so many interfaces, each of which is selected on."""
    schema = numbered("interface I{}{{x:Int}}", count) + f" type Query implements {'&'.join(names('I', count))}{{x:Int}}"
    return request(schema, "{" + numbered("...on I{}{{x}}", count) + "}", data={"x": 1})


def interfaces_met(count):
    """So many fragments on one interface inside another, where one type of so many has both."""
    types = numbered("type A{0} implements I{{x:Int}}type B{0} implements J{{x:Int}}", count) + "type C implements I&J{x:Int}"
    schema = "interface I{x:Int}interface J{x:Int}type Query{i:I}" + types
    return request(schema, "{i{" + "...on J{x}" * count + "}}", data={"i": {"__typename": "C", "x": 1}})


def interfaces_introspected(count):
    """The possible types of so many interfaces."""
    types = numbered("interface I{0}{{x:Int}}type A{0} implements I{0}{{x:Int}}", count)
    return request("type Query{f:Int}" + types, "{__schema{types{possibleTypes{name}}}}", introspection=True)


def interface_arguments(count):
    """A field of so many arguments, and the same field of an interface."""
    field = f"f({numbered('a{}:Int', count)}):Int"
    return request(f"interface I{{{field}}}type Query implements I{{{field}}}", "{f}", data={"f": 1})


def arguments_alike(count):
    """A field of so many arguments, which is given them twice."""
    given = f"f({numbered('a{}:1', count)})"
    return request(f"type Query{{f({numbered('a{}:Int', count)}):Int}}", f"{{{given}{given}}}", data={"f": 1})


def keys_alike(count):
    """A field whose argument is an object literal of so many keys, twice."""
    given = f"f(a:{{{numbered('a{}:1', count)}}})"
    return request("scalar J type Query{f(a:J):Int}", f"{{{given}{given}}}", data={"f": 1})


def default_of_many(count):
    """A field under so many aliases, whose argument is so long a list by default."""
    return request(f"type Query{{f(a:[Int]=[{'1 ' * count}]):Int}}", "{" + numbered("f{}:f", count) + "}", data={"f": 1})


def operations_with_uses(count):
    """So many operations that spread one fragment with so many uses of a variable."""
    operations = numbered("query Q{}($v:Int){{...F}}", count)
    fragment = f" fragment F on Query{{{numbered('f{}:f(a:$v)', count)}}}"
    return request("type Query{f(a:Int):Int}", operations + fragment, operationName="Q1", data={"f": 1})


def long_name_told(count):
    """So many faults, each of which tells a name of ten times so many bytes."""
    name = "N" * 10 * count
    return request(f"type Query{{a:{name}}}type {name}{{x:Int}}", "{a{" + fields(count) + "}}")


def long_name_given(count):
    """So many items, each of which tells a name of ten times so many bytes."""
    name = "N" * 10 * count
    return request(f"type Query{{a:[{name}]}}type {name}{{x:Int}}", "{a{__typename}}", data={"a": [{}] * count})


def literal_of_many(count):
    """An object literal of so many keys."""
    return request(f"input I{{{numbered('a{}:Int', count)}}}type Query{{f(i:I):Int}}", f"{{f(i:{{{numbered('a{}:1', count)}}})}}", data={"f": 1})


def variable_of_many(count):
    """An object of so many members in a variable."""
    value = {name: 1 for name in names("a", count)}
    return request(f"input I{{{numbered('a{}:Int', count)}}}type Query{{f(i:I):Int}}", "query($v:I){f(i:$v)}", variables={"v": value}, data={"f": 1})


def far_apart(count):
    """So many items, each with a fault at either end of a long line."""
    query = "{l{a" + " " * 10 * count + "b}}"
    return request("type Query{l:[A]}type A{a:Int b:Int}", query, data={"l": [{"a": "x", "b": "x"}] * count})


def circle_of_fragments(count):
    """So many fragments, each of which spreads the next and the last the first."""
    circle = " ".join(f"fragment F{number} on Query{{...F{(number + 1) % count}}}" for number in range(count))
    return request("type Query{f:Int}", "{...F0}" + circle)


def fragments_spread(count):
    """So many fragments that are all spread."""
    fragments = numbered("fragment F{0} on Query{{f{0}:f}}", count)
    return request("type Query{f:Int}", "{" + numbered("...F{}", count) + "}" + fragments, data={"f": 1})


def extended(count):
    """A type with so many extensions."""
    return request("type Query{f:Int}" + numbered("extend type Query{{f{}:Int}}", count), "{f}", data={"f": 1})


def undefined(count):
    """So many fields that are not defined."""
    return request("type Query{f:Int}", "{" + fields(count) + "}")


def defined_twice(count):
    """One type, so often."""
    return request("type Query{f:Int}" + "type A{x:Int}" * count, "{f}")


# Twice the size takes about twice as much, or about four times where things are looked at in pairs. Bounds are a quarter above what was
# measured.
LINEAR, PAIRS = 2.2, 4.8
CHECKER = "gql_checker_program"
ROWS = [
    Row("fields", requests.many_fields, 1_000, LINEAR, 890, 49),
    Row("items", requests.many_items, 4_000, LINEAR, 370, 45),
    Row("errors", requests.many_errors, 2_000, LINEAR, 530, 80),
    Row("variables", requests.many_variables, 500, LINEAR, 1_400, 83),
    Row("arguments", requests.many_arguments, 1_000, LINEAR, 2_200, 57),
    Row("alike", requests.many_alike, 500, LINEAR, 2_300, 260),
    Row("different", requests.many_different, 500, LINEAR, 2_900, 200),
    Row("types", requests.many_types, 500, LINEAR, 1_400, 90),
    Row("union", texts.union_of, 500, LINEAR, 1_300, 90),
    Row("enum", texts.enum_of, 2_000, LINEAR, 850, 68),
    Row("literal", texts.long_literal, 500_000, LINEAR, 55, 13),
    Row("name", texts.long_name, 100_000, LINEAR, 34, 13),
    Row("block", texts.long_block, 200_000, LINEAR, 130, 13),
    Row("operations", texts.many_operations, 1_000, LINEAR, 1_600, 150),
    Row("directives", lambda count: texts.many_directives(count, " repeatable "), 1_000, LINEAR, 1_700, 230),
    Row("repeated-directives", lambda count: texts.many_directives(count, " "), 1_000, LINEAR, 2_400, 230, REFUSED),
    Row("members-selected", members_selected, 300, LINEAR, 1_500, 120),
    Row("implementers-selected", implementers_selected, 300, LINEAR, 1_300, 110),
    Row("apart", apart, 1_500, LINEAR, 1_200, 91),
    Row("interface-arguments", interface_arguments, 4_000, LINEAR, 1_530, 71),
    Row("arguments-alike", arguments_alike, 4_000, LINEAR, 2_410, 64),
    Row("literal-of-many", literal_of_many, 1_000, LINEAR, 1_900, 58),
    Row("variable-of-many", variable_of_many, 1_000, LINEAR, 750, 57),
    Row("far-apart", far_apart, 1_000, LINEAR, 650, 70),
    Row("circle-of-fragments", circle_of_fragments, 500, LINEAR, 1_300, 70, REFUSED),
    Row("fragments-spread", fragments_spread, 500, LINEAR, 1_100, 77),
    Row("extended", extended, 1_000, LINEAR, 660, 83),
    Row("undefined", undefined, 2_000, LINEAR, 1_900, 83, REFUSED),
    Row("defined-twice", defined_twice, 1_000, LINEAR, 1_500, 180, REFUSED),
    Row("one-conflict", texts.one_conflict, 200, PAIRS, 90_000, 4_100, REFUSED),
    Row("all-different", all_different, 100, PAIRS, 82_000, 6_600, REFUSED),
    Row("members-resolved", members_resolved, 600, PAIRS, 1_400, 72),
    Row("implementers-resolved", implementers_resolved, 600, PAIRS, 890, 59),
    Row("interfaces-listed", interfaces_listed, 600, PAIRS, 1_600, 140),
    Row("interfaces-met", interfaces_met, 250, PAIRS, 2_100, 84),
    Row("interfaces-introspected", interfaces_introspected, 300, PAIRS, 2_100, 92),
    Row("keys-alike", keys_alike, 500, PAIRS, 3_200, 42),
    Row("default-of-many", default_of_many, 100, PAIRS, 15_000, 10),
    Row("operations-with-uses", operations_with_uses, 80, PAIRS, 7_500, 42),
    Row("long-name-told", long_name_told, 300, PAIRS, 1_700, 810, REFUSED),
    Row("long-name-given", long_name_given, 300, PAIRS, 970, 800),
    Row("checked-items", checked.explained_items, 2_000, LINEAR, 270, 29, program=CHECKER),
    Row("checked-item-errors", checked.failing_items, 2_000, LINEAR, 190, 24, program=CHECKER),
    Row("checked-field-errors", checked.failing_fields, 2_000, LINEAR, 320, 28, program=CHECKER),
    Row("checked-far-errors", checked.far_errors, 3_000, LINEAR, 180, 24, REFUSED, CHECKER),
    Row("checked-one-place", checked.one_place, 2_000, LINEAR, 175, 24, program=CHECKER),
]
