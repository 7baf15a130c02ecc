"""Requests that nobody should send: cut, changed, nested and large ones."""
import json

ANSWERED, REFUSED, TOO_LONG = 0, 1, 6

# Ten requests, each of another feature.
REQUESTS = [
    '{"schema":"type Query{a:A}type A{x:Int}","query":"{a{x}}","data":{"a":{"x":7}}}',
    '{"query":"{s}","schema":"type Query{s:String}","data":{"s":{"__error":"\\u00e9\\\\"}}}',
    ' { "data" : null , "schema" : "type Query { i : Int }" , "query" : "{ i }" , "x" : [ -1 , true ] } ',
    '{"schema":"type Query{l:[[Int!]]!}","query":"{l}","data":{"l":[[1,null],[2]]}}',
    '{"schema":"interface I{x:Int}type A implements I{x:Int!}type Query{i:I}","query":"{i{x ...on A{__typename}}}","data":{"i":{"__typename":"A","x":1}}}',
    '{"schema":"union U=A|B type A{x:Int}type B{y:Int}type Query{u:[U]}","query":"{u{...F}}fragment F on A{x}","data":{"u":[{"__typename":"B"}]}}',
    '{"schema":"type Query{f(a:[Int!]):Int}","query":"query Q($v:[Int!]=[1]){f(a:$v)}","operationName":"Q","variables":{"v":3},"data":{"f":1}}',
    '{"schema":"input I{a:Int=1 b:[I!]}type Query{f(i:I!):Int}","query":"query($i:I!){f(i:$i)g:f(i:{b:[{a:2}]})}","variables":{"i":{"a":null}}}',
    '{"schema":"type Query{f:Int}","query":"{__schema{queryType{fields{name}}}f}","introspection":true,"data":{"f":1}}',
    '{"schema":"enum E{A B}directive @d(e:E)on FIELD type Query{e:E}","query":"query($s:Boolean=true){e@d(e:A)x:e@skip(if:$s)}","data":{"e":"B"}}',
]
CHANGED = [0, 9, 32, 34, 44, 48, 91, 92, 123, 125, 128, 255]
LIMIT = 16_777_216


def is_json(text):
    """Whether the bytes are a JSON text with no floats."""
    try:
        json.loads(text.decode("utf-8"), parse_float=refuse, parse_constant=refuse)
    except (ValueError, RecursionError):
        return False
    return True


def refuse(text):
    raise ValueError(text)


def request(schema, query, **others):
    return json.dumps({"schema": schema, "query": query} | others).encode()


def fields(count):
    return " ".join(f"f{number}" for number in range(count))


def padded(length):
    """A request of so many bytes, most of them white space."""
    return REQUESTS[0].encode() + b" " * (length - len(REQUESTS[0].encode()))


def nested_json(depth):
    """A request with a member that is nested so deep, the request itself included."""
    return REQUESTS[0].encode()[:-1] + b',"x":' + b"[" * (depth - 1) + b"]" * (depth - 1) + b"}"


def nested_sets(depth):
    """A request whose selection sets nest so deep."""
    query = "{a" * (depth - 1) + "{x}" + "}" * (depth - 1)
    return request("type Query{a:Query x:Int}", query, data={"a": {"a": None}})


def nested_types(depth):
    """A request with a type of so many lists, whose data has one item."""
    return request("type Query{a:" + "[" * depth + "Int" + "]" * depth + "}", "{a}", data={"a": [1]})


def doubling(count, introspection):
    """Fragments that spread the next one twice: written out they are as many fields as 2 to the count."""
    spreads = " ".join(f"fragment F{number} on Query {{ ...F{number + 1} ...F{number + 1} }}" for number in range(count))
    query = f"{{ ...F0 }} {spreads} fragment F{count} on Query {{ x }}"
    return request("type Query{x:Int}", query, data={"x": 1}, introspection=introspection)


def many_fields(count):
    """A query of so many fields over a type and an object that have them."""
    schema = "type Query {" + " ".join(f"f{number}:Int" for number in range(count)) + "}"
    return request(schema, "{" + fields(count) + "}", data={f"f{number}": number for number in range(count)})


def many_items(count):
    """A list of so many numbers, and one of so many objects."""
    return request("type Query{l:[Int]x:[A]}type A{y:Int}", "{l x{y}}", data={"l": list(range(count)), "x": [{"y": 1}] * count})


def many_errors(count):
    """So many objects that each have a failing field."""
    return request("type Query{x:[A]}type A{y:Int}", "{x{y}}", data={"x": [{"y": {"__error": "e"}}] * count})


def many_variables(count):
    """So many variables, each used once and given."""
    names = [f"v{number}" for number in range(count)]
    query = "query(" + "".join(f"${name}:Int" for name in names) + "){" + " ".join(f"{name}:f(a:${name})" for name in names) + "}"
    return request("type Query{f(a:Int):Int}", query, variables={name: 1 for name in names}, data={"f": 1})


def much_given(count):
    """A list of so many texts in a variable, and a field that is given it under a tenth as many aliases."""
    query = "query($l:[String]){" + " ".join(f"a{number}:f(l:$l)" for number in range(count // 10)) + "}"
    return request("type Query{f(l:[String]):Int}", query, variables={"l": ["x"] * count}, data={"f": 1})


def many_arguments(count):
    """A field of so many arguments, all given."""
    defined = " ".join(f"a{number}:Int" for number in range(count))
    given = " ".join(f"a{number}:1" for number in range(count))
    return request("type Query{f(" + defined + "):Int}", "{f(" + given + ")}", data={"f": 1})


def many_alike(count):
    """One field with arguments, which are given in two orders, so often, and another with sets below it."""
    given = ["a:1 b:{c:2 d:[3]}", "b:{d:[3] c:2} a:1"]
    fields_alike = " ".join(f"f({it})" for it in given) + " "
    nested = " ".join(f"q({it}){{q({it}){{f({it})}}}}" for it in given) + " "
    schema = "input I{c:Int d:[Int]}type Query{f(a:Int b:I):Int q(a:Int b:I):Query}"
    query = "{" + fields_alike * (count // 2) + nested * (count // 8) + "}"
    return request(schema, query, data={"f": 1, "q": {"q": {"f": 1}}})


def many_different(count):
    """One field so often, each time with another set below it."""
    query = "{" + " ".join(f"q{{x{number}:f}}" for number in range(count)) + "}"
    return request("type Query{f:Int q:Query}", query, data={"q": {"f": 1}})


def many_types(count):
    """A schema of so many types that name each other."""
    types = "".join(f"type T{number}{{t:T{(number * 7 + 1) % count} x:Int}}" for number in range(count))
    return request("type Query{t:T0}" + types, "{t{t{x}}}", data={"t": {"t": {"x": 1}}})


def cut(step):
    """Each request up to each `step`-th of its bytes."""
    for number, text in enumerate(REQUESTS):
        whole = text.encode()
        end = len(whole.rstrip())
        for length in range(0, len(whole) + 1, step):
            yield f"cut{number}-{length}", whole[:length], [ANSWERED if length >= end else REFUSED]


def changed(step):
    """Requests with one byte changed, each `step`-th of their bytes to each of a dozen."""
    for number, text in enumerate(REQUESTS):
        whole = text.encode()
        for place in range(0, len(whole), step):
            for byte in CHANGED:
                other = whole[:place] + bytes([byte]) + whole[place + 1 :]
                yield f"changed{number}-{place}-{byte}", other, [ANSWERED, REFUSED] if is_json(other) else [REFUSED]


def large(count):
    """Requests at and past each limit, and requests with many of a thing."""
    yield "nested127", nested_json(127), [ANSWERED]
    yield "nested128", nested_json(128), [REFUSED]
    yield "longest", padded(LIMIT), [ANSWERED]
    yield "too-long", padded(LIMIT + 1), [TOO_LONG]
    yield "sets500", nested_sets(500), [ANSWERED]
    yield "sets501", nested_sets(501), [REFUSED]
    yield "types499", nested_types(499), [ANSWERED]
    yield "types501", nested_types(501), [REFUSED]
    yield "doubling", doubling(31, False), [ANSWERED]
    yield "doubling-depth", doubling(31, True), [ANSWERED]
    yield "fields", many_fields(count), [ANSWERED]
    yield "items", many_items(count), [ANSWERED]
    yield "errors", many_errors(count), [ANSWERED]
    yield "variables", many_variables(count), [ANSWERED]
    yield "arguments", many_arguments(count // 10), [ANSWERED]
    yield "given", much_given(count // 10), [ANSWERED]
    yield "alike", many_alike(count // 10), [ANSWERED]
    yield "different", many_different(count // 10), [ANSWERED]
    yield "types", many_types(count), [ANSWERED]


def of_some_size():
    """Five requests that take a few megabytes each."""
    yield "fields", many_fields(2_000)
    yield "items", many_items(4_000)
    yield "errors", many_errors(2_000)
    yield "variables", many_variables(1_000)
    yield "types", many_types(500)
