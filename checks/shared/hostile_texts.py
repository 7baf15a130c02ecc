"""Texts that nobody should send: with very many of a thing, with very long ones, and with chains at and past their limit."""
from shared.hostile_requests import ANSWERED, REFUSED, request

# How long a literal, a name and a block string are, in bytes.
LITERAL, NAME, BLOCK = 16_000_000, 1_000_000, 8_000_000

# How many names a chain may have.
CHAIN = 32


def union_of(count):
    """A union of so many members, and an object of its last."""
    members = [f"T{number}" for number in range(count)]
    types = " ".join(f"type {name}{{x:Int}}" for name in members)
    query = "{u{__typename ...on T0{x}}}"
    return request(f"type Query{{u:U}}union U={'|'.join(members)} {types}", query, data={"u": {"__typename": members[-1]}})


def enum_of(count):
    """An enum of so many values, and its last."""
    values = " ".join(f"V{number}" for number in range(count))
    return request(f"type Query{{e:E}}enum E{{{values}}}", "{e}", data={"e": f"V{count - 1}"})


def long_literal(length):
    return request("type Query{f(a:String):Int}", '{f(a:"' + "x" * length + '")}', data={"f": 1})


def long_name(length):
    name = "n" * length
    return request(f"type Query{{{name}:Int}}", f"{{{name}}}", data={name: 1})


def long_block(length):
    """A block string of so many bytes in short lines, each further in than the last."""
    line = "\n" + " " * 7 + "x"
    return request("type Query{f(a:String):Int}", '{f(a:"""' + line * (length // len(line)) + '""")}', data={"f": 1})


def one_conflict(count):
    """One scalar field under one key so often, and another once."""
    return request("type Query{a:Int b:Int}", "{" + "x:a " * count + "x:b}")


def many_operations(count):
    query = " ".join(f"query Q{number}{{f}}" for number in range(count))
    return request("type Query{f:Int}", query, operationName=f"Q{count - 1}", data={"f": 1})


def many_directives(count, kind):
    """So many uses of one directive on one field."""
    return request(f"directive @d(a:Int){kind}on FIELD type Query{{f:Int}}", "{f" + "@d(a:1)" * count + "}", data={"f": 1})


def chain_of_fragments(count):
    chain = " ".join(f"fragment F{number} on Query{{...F{number + 1}}}" for number in range(count - 1))
    return request("type Query{f:Int}", f"{{...F0}}{chain} fragment F{count - 1} on Query{{f}}", data={"f": 1})


def chain_of_interfaces(count):
    """So many interfaces, each of which lists all before it."""
    names = [f"I{number}" for number in range(count)]
    first = "interface I0{x:Int}"
    others = " ".join(f"interface {names[at]} implements {'&'.join(names[:at])}{{x:Int}}" for at in range(1, count))
    return request(f"type Query{{x:Int}}{first}{others}", "{x}", data={"x": 1})


def chain_of_inputs(count):
    chain = " ".join(f"input I{number}{{a:I{number + 1}!}}" for number in range(count - 1))
    return request(f"type Query{{f(i:I0):Int}}{chain} input I{count - 1}{{x:Int}}", "{f}", data={"f": 1})


def chain_of_directives(count):
    chain = " ".join(f"directive @d{number}(a:Int@d{number + 1})on ARGUMENT_DEFINITION" for number in range(count - 1))
    return request(f"{chain} directive @d{count - 1} on ARGUMENT_DEFINITION type Query{{f:Int}}", "{f}", data={"f": 1})


CHAINS = {
    "fragments": chain_of_fragments,
    "interfaces": chain_of_interfaces,
    "inputs": chain_of_inputs,
    "directives": chain_of_directives,
}


def nested_variable(depth):
    """A variable whose value has so many levels, of an input type that is nested in itself."""
    value = {}
    for _ in range(depth - 1):
        value = {"i": value}
    return request("input I{i:I}type Query{f(i:I):Int}", "query($v:I){f(i:$v)}", variables={"v": value}, data={"f": 1})


def nested_leaf(depth):
    """A value of so many arrays at a scalar of one's own."""
    value = []
    for _ in range(depth - 1):
        value = [value]
    return request("scalar J type Query{j:J}", "{j}", data={"j": value})


def null_in_lists(depth):
    """A null at a type of so many lists."""
    return request("type Query{a:" + "[" * depth + "Int" + "]" * depth + "}", "{a}", data={"a": None})


def texts(count):
    """Name, bytes and wanted statuses of each request."""
    yield "union", union_of(count), [ANSWERED]
    yield "enum", enum_of(count), [ANSWERED]
    yield "literal", long_literal(LITERAL * count // 100_000), [ANSWERED]
    yield "name", long_name(NAME), [ANSWERED]
    yield "block", long_block(BLOCK * count // 100_000), [ANSWERED]
    # Each pair that conflicts is told, so there are fewer of these.
    yield "conflict", one_conflict(count // 100), [REFUSED]
    yield "operations", many_operations(count // 10), [ANSWERED]
    yield "directives", many_directives(count // 10, " repeatable "), [ANSWERED]
    yield "repeated-directives", many_directives(count // 10, " "), [REFUSED]
    for name, chain in CHAINS.items():
        yield f"chain-of-{name}", chain(CHAIN), [ANSWERED]
        yield f"long-chain-of-{name}", chain(CHAIN + 1), [REFUSED]
    yield "nested-variable", nested_variable(125), [ANSWERED]
    yield "nested-variable-past-the-limit", nested_variable(126), [REFUSED]
    yield "nested-leaf", nested_leaf(125), [ANSWERED]
    yield "null-in-lists", null_in_lists(500), [ANSWERED]
