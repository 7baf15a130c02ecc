#!/usr/bin/env python3
"""Compares the parser with a plain recogniser of GraphQL's grammar on all short lists of a few tokens.

The grammar below is written after appendix B.3 of GraphQL October 2021, apart from the one that the parser runs by. The
recogniser is Earley's: it keeps every way to read what came so far, so the first token that no way takes is the place of
the fault. A list of tokens is written with spaces between them, and the program must tell the same place.
`checks/sentences.py all` tries every list, and so does a run over a program that the gate has built."""
import itertools
import sys

from shared.trying import built, try_cases

# A rule is its ways, divided by `|`. Rules begin with a capital; `name` is any name, other words stand for themselves.
# `X?` is optional and `X*` any number; `X!` is optional too, but must come where a brace follows.
GRAMMAR = """
Document = Definition Definition*
Definition = Operation | Fragment | Type | Union | Extension
Operation = SelectionSet | query name? Variables? Directive* SelectionSet
SelectionSet = { Selection Selection* }
Selection = Alias? name Arguments? Directive* SelectionSet? | ... notOn Directive* | ... Condition? Directive* SelectionSet
Alias = name :
Arguments = ( Argument Argument* )
Argument = name : Value
Value = Variable | 1 | "s" | null | name | [ Value* ] | { Argument* }
Constant = 1 | "s" | null | name | [ Constant* ] | { ConstantField* }
ConstantField = name : Constant
Variable = $ name
Variables = ( VariableDefinition VariableDefinition* )
VariableDefinition = Variable : Reference Default? ConstantDirective*
Default = = Constant
Directive = @ name Arguments?
ConstantDirective = @ name ConstantArguments?
ConstantArguments = ( ConstantField ConstantField* )
Fragment = fragment notOn Condition Directive* SelectionSet
Condition = on name
Reference = name | [ Reference ] | name ! | [ Reference ] !
Type = "s"? type name Implements? ConstantDirective* Fields!
Fields = { Field Field* }
Field = "s"? name : Reference ConstantDirective*
Implements = implements &? name AndName*
AndName = & name
Union = "s"? union name ConstantDirective* Members?
Members = = |? name OrName*
OrName = | name
Extension = extend type name Implements ConstantDirective* Fields! | extend type name ConstantDirective ConstantDirective* Fields! | extend type name Fields | extend union name ConstantDirective ConstantDirective* Members? | extend union name Members
FieldSet = SelectionSet | Selection Selection*
"""

SENTENCE = "sentence"

# Programs run slowly under `rt try`, and a run of all takes eight minutes: with no word `all`, the sentences are tried and
# one of so many others.
STEP = 17

# What the program reads, with the rule of the grammar, a beginning, and the tokens of which all short lists follow it.
GROUPS = [
    ("type", "Reference", "", "name [ ] !", 4),
    ("selection_set", "FieldSet", "", "name { } ... on : @", 3),
    ("selection_set", "FieldSet", "name ( name :", "name $ [ ] { } : ) 1 null", 2),
    ("document", "Document", "type name", "name { } : @ implements & type", 2),
    ("document", "Document", "type name {", "} name : & query", 3),
    ("document", "Document", "extend type name", "{ } @ name implements \"s\"", 2),
    ("document", "Document", "union name", "= | name { extend", 3),
    ("document", "Document", "query name ( $ name : name", "name [ = 1 ! ) $ { }", 2),
    ("document", "Document", "", "fragment on name { } query \"s\" type", 3),
]


def read_grammar():
    rules = {}
    for line in GRAMMAR.strip().splitlines():
        name, ways = line.split(" = ", 1)
        # A bar between blanks divides ways only where a way can end: the tokens `|` stand first in `Members` and `OrName`.
        if name in ("OrName", "Members"):
            rules[name] = [ways.split()]
        else:
            rules[name] = [way.split() for way in ways.split(" | ")]
    return rules


RULES = read_grammar()


def takes(symbol, token):
    is_name = token.isalpha()
    if symbol == "name":
        return is_name
    if symbol == "notOn":
        return is_name and token != "on"
    return symbol == token


def closure(states, chart, following):
    """All states reached from `states` without a token, where `following` is the next token or None at the end."""
    place = len(chart) - 1
    known, queue = set(), list(states)
    while queue:
        state = queue.pop()
        if state in known:
            continue
        known.add(state)
        name, way, dot, origin = state
        if dot == len(way):
            waiting = chart[origin] if origin != place else known
            for other, theirs, at, begun in list(waiting):
                if at < len(theirs) and base(theirs[at])[0] == name:
                    queue.append((other, theirs, at if theirs[at].endswith("*") and len(theirs[at]) > 1 else at + 1, begun))
            continue
        rule, mark = base(way[dot])
        if mark in ("?", "*") or (mark == "!" and following != "{"):
            queue.append((name, way, dot + 1, origin))
        if rule in RULES:
            for each in RULES[rule]:
                queue.append((rule, tuple(each), 0, place))
            # what was completed here before it was awaited here
            for done, theirs, at, begun in list(known):
                if done == rule and at == len(theirs) and begun == place:
                    queue.append((name, way, dot if mark == "*" else dot + 1, origin))
    return known


def base(symbol):
    if len(symbol) > 1 and symbol[-1] in "?*!" and symbol != "...":
        return symbol[:-1], symbol[-1]
    return symbol, ""


def judge(start, tokens):
    """The number of tokens before the first that no sentence goes on with, or None for a sentence."""
    states = {("", (start,), 0, 0)}
    chart = []
    for place, token in enumerate([*tokens, None]):
        chart.append(set())
        chart[-1] = closure(states, chart, token)
        if token is None:
            return None if ("", (start,), 1, 0) in chart[-1] else place
        states = set()
        for name, way, dot, origin in chart[-1]:
            if dot < len(way):
                symbol, mark = base(way[dot])
                if symbol not in RULES and takes(symbol, token):
                    states.add((name, way, dot if mark == "*" else dot + 1, origin))
        if not states:
            return place
    return None


def spelled(tokens):
    """The text of the tokens, and the byte where each begins, and behind them the length."""
    text, places = "", []
    for token in tokens:
        places.append(len(text))
        text += token + " "
    return text, [*places, len(text)]


def cases_of(group):
    word, start, front, alphabet, longest = group
    for count in range(longest + 1):
        for tail in itertools.product(alphabet.split(), repeat=count):
            tokens = [*front.split(), *tail]
            text, places = spelled(tokens)
            place = judge(start, tokens)
            if place is None:
                yield text, SENTENCE
            else:
                fault = "Unexpected <EOF>." if place == len(tokens) else "unexpected token"
                yield text, f"{fault} at byte {places[place]}\n"


def run_cases(word, cases):
    """The texts of which the program, asked to read a `word`, tells otherwise than the recogniser."""
    named = [
        (f"case{number}", text.encode(), None if wanted == SENTENCE else wanted)
        for number, (text, wanted) in enumerate(cases)
    ]
    statuses, as_wanted = try_cases("gql_syntax_program", word, named)
    for name, text, wanted in named:
        status = statuses.get(name)
        fits = status == 0 if wanted is None else status == 1 and name in as_wanted
        if not fits:
            yield text.decode(), (wanted or SENTENCE).strip(), status


def main():
    passed = failed = sentences = 0
    tries_all = sys.argv[1:] == ["all"] or built("gql_syntax_program")
    for word in ("type", "selection_set", "document"):
        cases = [case for group in GROUPS if group[0] == word for case in cases_of(group)]
        if not tries_all:
            cases = [case for number, case in enumerate(cases) if case[1] == SENTENCE or number % STEP == 0]
        wrong = list(run_cases(word, cases))
        for text, wanted, status in wrong[:5]:
            print(f"sentences: {text!r}: wanted {wanted}, found status {status}")
        sentences += sum(wanted == SENTENCE for _text, wanted in cases)
        failed += len(wrong)
        passed += len(cases) - len(wrong)
    print(f"sentences: {passed} lists of tokens told alike, {failed} otherwise; {sentences} are sentences")
    return 1 if failed or not sentences else 0


if __name__ == "__main__":
    sys.exit(main())
