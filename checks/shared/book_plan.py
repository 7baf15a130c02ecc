"""In which order the book has what is defined: the parts, the sections of GraphQL October 2021, and where each file of definitions stands."""
import re

# The sections of the standard, by its numbers and titles.
STANDARD = """
2 Language
2.1 Source Text
2.1.1 Unicode
2.1.2 White Space
2.1.3 Line Terminators
2.1.4 Comments
2.1.5 Insignificant Commas
2.1.6 Lexical Tokens
2.1.7 Ignored Tokens
2.1.8 Punctuators
2.1.9 Names
2.2 Document
2.3 Operations
2.4 Selection Sets
2.5 Fields
2.6 Arguments
2.7 Field Alias
2.8 Fragments
2.8.1 Type Conditions
2.8.2 Inline Fragments
2.9 Input Values
2.9.1 Int Value
2.9.2 Float Value
2.9.3 Boolean Value
2.9.4 String Value
2.9.5 Null Value
2.9.6 Enum Value
2.9.7 List Value
2.9.8 Input Object Values
2.10 Variables
2.11 Type References
2.12 Directives
B Grammar Summary
3 Type System
3.1 Type System Extensions
3.2 Descriptions
3.3 Schema
3.3.1 Root Operation Types
3.3.2 Schema Extension
3.4 Types
3.4.1 Wrapping Types
3.4.2 Input and Output Types
3.4.3 Type Extensions
3.5 Scalars
3.5.1 Int
3.5.2 Float
3.5.3 String
3.5.4 Boolean
3.5.5 ID
3.5.6 Scalar Extensions
3.6 Objects
3.6.1 Field Arguments
3.6.2 Field Deprecation
3.6.3 Object Extensions
3.7 Interfaces
3.7.1 Interface Extensions
3.8 Unions
3.8.1 Union Extensions
3.9 Enums
3.9.1 Enum Extensions
3.10 Input Objects
3.10.1 Input Object Extensions
3.11 List
3.12 Non-Null
3.12.1 Combining List and Non-Null
3.13 Directives
3.13.1 @skip
3.13.2 @include
3.13.3 @deprecated
3.13.4 @specifiedBy
4 Introspection
4.1 Type Name Introspection
4.2 Schema Introspection
4.2.1 The __Schema Type
4.2.2 The __Type Type
4.2.3 The __Field Type
4.2.4 The __InputValue Type
4.2.5 The __EnumValue Type
4.2.6 The __Directive Type
5 Validation
5.1 Documents
5.1.1 Executable Definitions
5.2 Operations
5.2.1 Named Operation Definitions
5.2.1.1 Operation Name Uniqueness
5.2.2 Anonymous Operation Definitions
5.2.2.1 Lone Anonymous Operation
5.2.3 Subscription Operation Definitions
5.2.3.1 Single Root Field
5.3 Fields
5.3.1 Field Selections
5.3.2 Field Selection Merging
5.3.3 Leaf Field Selections
5.4 Arguments
5.4.1 Argument Names
5.4.2 Argument Uniqueness
5.4.2.1 Required Arguments
5.5 Fragments
5.5.1 Fragment Declarations
5.5.1.1 Fragment Name Uniqueness
5.5.1.2 Fragment Spread Type Existence
5.5.1.3 Fragments on Composite Types
5.5.1.4 Fragments Must Be Used
5.5.2 Fragment Spreads
5.5.2.1 Fragment Spread Target Defined
5.5.2.2 Fragment Spreads Must Not Form Cycles
5.5.2.3 Fragment Spread Is Possible
5.6 Values
5.6.1 Values of Correct Type
5.6.2 Input Object Field Names
5.6.3 Input Object Field Uniqueness
5.6.4 Input Object Required Fields
5.7 Directives
5.7.1 Directives Are Defined
5.7.2 Directives Are in Valid Locations
5.7.3 Directives Are Unique per Location
5.8 Variables
5.8.1 Variable Uniqueness
5.8.2 Variables Are Input Types
5.8.3 All Variable Uses Defined
5.8.4 All Variables Used
5.8.5 All Variable Usages Are Allowed
6 Execution
6.1 Executing Requests
6.1.1 Validating Requests
6.1.2 Coercing Variable Values
6.2 Executing Operations
6.2.1 Query
6.2.2 Mutation
6.2.3 Subscription
6.3 Executing Selection Sets
6.3.1 Normal and Serial Execution
6.3.2 Field Collection
6.4 Executing Fields
6.4.1 Coercing Field Arguments
6.4.2 Value Resolution
6.4.3 Value Completion
6.4.4 Handling Field Errors
7 Response
7.1 Response Format
7.1.1 Data
7.1.2 Errors
7.2 Serialization Format
7.2.1 JSON Serialization
7.2.2 Serialized Map Ordering
"""

# What is not the standard's, before and behind it: each section's sign and title.
BEFORE = [("answer", "Answers to requests"), ("texts", "What the texts of a schema and a query mean")]
BEHIND = [
    ("json", "JSON"),
    ("json-values", "Values and maps"),
    ("json-reading", "Reading"),
    ("json-printing", "Printing"),
    ("json-shapes", "Shapes"),
    ("programs", "Streams and programs"),
    ("streams", "Streams and runs"),
    ("told", "Faults as users are told them"),
    ("graphs", "Graphs and chains of names"),
    ("printed", "Schemas as texts"),
    ("commands", "Programs"),
    ("costs", "Costs"),
    ("gateways", "Gateways"),
    ("checked", "Responses checked"),
    ("client", "Schemas of introspection answers"),
    ("rounds", "Requests in rounds"),
    ("calls", "What other languages call"),
    ("examples", "Examples and tests"),
    ("laws", "Laws"),
]
PARTS = ["answer", "2", "3", "4", "5", "6", "7", "json", "programs", "laws"]

# Where the files of a crate stand whose first lines cite no section of the standard, and those of crates that are not of it.
CRATES = {
    "gql_engine": "answer",
    "gql_request": "answer",
    "gql_parser": "texts",
    "gql_source": "2.1.3",
    "gql_lexer": "2.1.6",
    "gql_grammar": "B",
    "gql_cst": "B",
    "gql_ast_base": "2",
    "gql_ast_definitions": "2.2",
    "gql_ast": "2.2",
    "gql_ast_parts": "2.2",
    "gql_ast_reader": "2.2",
    "gql_sdl": "printed",
    "gql_diag_messages": "told",
    "gql_diag": "told",
    "gql_response": "7.1",
    "gql_schema_types": "3.4",
    "gql_schema_build": "3.3",
    "gql_schema": "3.3",
    "gql_schema_rules": "3",
    "gql_schema_rules_parts": "3",
    "gql_rules_types": "3",
    "gql_rules_values": "5.6",
    "gql_graph": "graphs",
    "gql_document_types": "5.5.2",
    "gql_document": "5.3",
    "gql_rules_nodes": "5",
    "gql_rules_merging": "5.3.2",
    "gql_rules": "5",
    "gql_coerce": "6.1.2",
    "gql_collect": "6.3.2",
    "gql_resolvers": "6.4",
    "gql_introspection": "4.2",
    "gql_exec_fields": "6.4",
    "gql_exec": "6.2",
    "jb_text": "json-values",
    "jb_map": "json-values",
    "jb_tree": "json-values",
    "jb_from_json": "json-values",
    "jb_read": "json-reading",
    "jb_print": "json-printing",
    "jb_shape": "json-shapes",
    "jb_io": "streams",
    "jb_tool": "commands",
    "gql_syntax_tool": "commands",
    "gql_cost": "costs",
    "gql_cost_bound": "costs",
    "gql_gateway": "gateways",
    "gql_gateway_parts": "gateways",
    "gql_checker": "checked",
    "gql_verdict": "checked",
    "gql_response_check": "checked",
    "gql_checker_laws": "checked",
    "gql_client_schema": "client",
    "gql_changes": "client",
    "gql_asks": "rounds",
    "gql_rounds": "rounds",
    "gql_c": "calls",
    "gql_wasm": "calls",
}

# Crates whose files stand there whatever sections they cite.
WHOLE = {"answer", "texts", "costs", "gateways", "checked", "client", "rounds", "calls", "printed"}

# Files that stand elsewhere than the others of their crates.
FILES = {
    "gql_collect/Check": "4",
    "gql_collect/DepthPlace": "4",
    "gql_collect/Expanded": "4",
    "gql_collect/Nested": "4",
    "gql_collect/Refusal": "4",
    "gql_collect/View": "4",
    "gql_collect/Walk": "4",
    "gql_source/File": "2.1",
    "gql_source/Span": "2.1",
    "gql_document_types/Count": "2.4",
    "gql_ast_base/Literals": "2.9",
    "gql_engine/Output": "commands",
    "gql_engine/Program": "commands",
    "gql_engine/Reply": "commands",
    "gql_engine/Reports": "told",
    "gql_engine/Serving": "commands",
    "gql_engine/Task": "commands",
    "gql_engine/DecimalWord": "commands",
    "gql_engine/ToldLine": "told",
    "gql_engine/Told": "told",
    "gql_engine/SelfTest": "commands",
    "gql_engine/Texts": "commands",
    "gql_engine/Meaning": "commands",
    "gql_request/SelfTest": "commands",
    "gql_request/Texts": "commands",
    "gql_request/Meaning": "commands",
}

# The definitions that the first page begins with, by crate, module and name.
FIRST = [
    ("gql_engine", "Answered", "Answered"),
    ("gql_engine", "AnswerError", "HasCause"),
    ("gql_engine", "Ready", "Ready"),
    ("gql_parser", "SchemaText", "SchemaText"),
    ("gql_parser", "DocumentText", "DocumentText"),
    ("gql_grammar", "Sentence", "Sentence"),
    ("gql_coerce", "Variables", "coerced_variables"),
    ("gql_resolvers", "Execute", "execute"),
    ("gql_resolvers", "Reached", "Reaches"),
    ("gql_resolvers", "Explained", "IsExplainedBy"),
    ("jb_read", "Spelling", "JsonText"),
]

# Where the decisions stand that docs/DECISIONS.md has under each heading.
DECISIONS = {
    "Values": "json-values",
    "Reading JSON": "json-reading",
    "Printing JSON": "json-printing",
    "Shapes": "json-shapes",
    "Streams": "streams",
    "Lines and tokens": "2.1",
    "Grammar": "B",
    "Syntax trees": "2.2",
    "Diagnostics": "told",
    "Schemas": "3.3",
    "Input values": "6.1.2",
    "Parsers": "texts",
    "Rules on schemas": "3",
    "Documents": "2.4",
    "Rules on documents": "5",
    "Execution": "6",
    "Schemas read back from introspection": "client",
    "Checking responses": "checked",
    "The engine": "answer",
    "What programs in other languages call": "calls",
    "Costs": "costs",
    "The response checker": "checked",
    "The gateway": "gateways",
    "Packages": None,
    "Servers": None,
    "The WebAssembly module and the page": None,
    "Left open": None,
}

CITED = re.compile(r"\b[Ss]ections? (\d+(?:\.\d+)*)|\b[Aa]ppendix (B)")
ELSEWHERE = re.compile(r"RFC \d+|GraphQL September 2025")


def sections():
    """All sections in order: sign, title, and how deep it stands: 1 for a part."""
    found = [(sign, title, 1 if sign in PARTS else 2) for sign, title in BEFORE]
    for line in STANDARD.strip().splitlines():
        sign, _, title = line.partition(" ")
        found.append((sign, title, 2 if sign == "B" else sign.count(".") + 1))
    return found + [(sign, title, 1 if sign in PARTS else 2) for sign, title in BEHIND]


def shown_sign(sign):
    """A section's number before its title, where it is the standard's."""
    return f"{'Appendix ' if sign == 'B' else ''}{sign} " if sign[0].isdigit() or sign == "B" else ""


def place_of(crate, module, comment):
    """The sign of the section that a file of definitions stands in, by its crate, its name and the comment that it begins with."""
    if f"{crate}/{module}" in FILES:
        return FILES[f"{crate}/{module}"]
    if crate not in CRATES and crate.endswith("_laws"):
        return "laws"
    if crate.startswith(("example_", "tests_", "bench_")):
        return "examples"
    if crate not in CRATES:
        raise SystemExit(f"book: no section is known for the definitions of {crate}: see CRATES in checks/shared/book_plan.py")
    place = CRATES[crate]
    return place if place in WHOLE or not place[0].isdigit() and place != "B" else cited(comment) or place


def cited(comment):
    """The section that a comment cites first, or that above it where it is one of a later standard, if the standard has it."""
    known = {sign for sign, _, _ in sections()}
    for match in CITED.finditer(comment):
        sign = match.group(1) or match.group(2)
        behind = comment[match.end() : match.end() + 40]
        if re.match(r"[\d., and]* ?of GraphQL September 2025", behind):
            sign = sign.rpartition(".")[0]
        while sign and sign not in known:
            sign = sign.rpartition(".")[0]
        if sign and sign != "1":
            return sign
    return None
