"""Renames with their answers and workspaces with their faults, counted by hand. A row of renames has files, the renames asked one
after another, and for each what is printed, with the splices `path at old new` of an accepted one, and a piece of the descriptors
after it. More rows, of all edits, are data of crates/protoref_rows.
"""

import re

P3 = 'syntax = "proto3"; '
ONE = P3 + "message A { string b_c = 1; }"
ENUMS = (
    "message M { enum E { V = 0; } optional E e = 1 [default = V]; }"
    " message N { enum F { V = 0; } optional F f = 1 [default = V]; }"
)
INNER = P3 + "package p; message Inner {} message A { message B {} %s x = 1; }"
USING_M = P3 + 'import "a.proto"; message %s { M m = 1; }'
TWO = "message M { %sstring fooBar = 1; %sstring x = 2; }"
MAP = P3 + "message M { map<string,int32> foo = 1; }"
MAP_JSON = (
    '{"field":[{"jsonName":"FooEntry","label":"LABEL_REPEATED","name":"FooEntry","number":1,"type":"TYPE_MESSAGE",'
    '"typeName":".M.FooEntryEntry"}],"name":"M","nestedType":[{"field":[{"jsonName":"key","label":"LABEL_OPTIONAL",'
    '"name":"key","number":1,"type":"TYPE_STRING"},{"jsonName":"value","label":"LABEL_OPTIONAL","name":"value",'
    '"number":2,"type":"TYPE_INT32"}],"name":"FooEntryEntry","options":{"mapEntry":true}}]}'
)


def refused(words):
    return ("refused: " + words, [], "")


def done(*splices, json=""):
    return ("", [tuple(splice.split()) for splice in splices], json)


COMMANDS = {"rename": "rename", "delete": "delete-field", "add": "add-import", "drop": "drop-import"}
TEXT = re.compile(r'"(?:[^"\\]|\\.)*"|[\[\],]|\b[A-Z_]+\b')
ESCAPE = re.compile(r"\\(.)")
PLAIN = {"n": "\n", "r": "\r", "t": "\t", "\\": "\\"}


def rows_of_data(source):
    """The rows that a table of edits has, without those of filled files: texts by path, the edits with their answers, the texts
    afterwards, a piece of the descriptors."""
    for block in source.split("\n\n"):
        lines = [line.partition(":") for line in block.splitlines() if line and not line.startswith("#")]
        parts = [(key, ESCAPE.sub(lambda it: PLAIN[it[1]], text[1:])) for key, _, text in lines]
        one = dict(parts)
        if parts and "bytes" not in one:
            steps = [step_of(text) for key, text in parts if key == "edit"]
            words = [(COMMANDS[step[0]], *step[1 : 2 if step[0] == "delete" else 3], step[3]) for step in steps]
            yield texts_of(one["files"]), words, texts_of(one.get("after", "")), one.get("json", "")


def values_of_table(table):
    return eval("".join(TEXT.findall(table)), {"__builtins__": {}})


def rows_of_faults(source):
    """The rows that a source of tests has of faults: texts by path, and the least one as `path:offset: number name`."""
    for table in re.findall(r"^const \w+: &\[\(&str, &str\)\] = (.*?\];)$", source, re.S | re.M):
        reported = values_of_table("[" + ",".join(one for one in TEXT.findall(table) if one[0] == '"') + "]")
        for given, said in zip(reported[::2], reported[1::2]):
            if re.fullmatch(r"\S+:\d+: \d+ \w+", said):
                yield texts_of(given, "|"), said


def rows_of_problems(source):
    """The rows that a table has of what `compile` prints of a fault: texts by path, and the line."""
    for block in source.split("\n\n"):
        one = {key: ESCAPE.sub(lambda it: PLAIN[it[1]], text[1:]) for key, _, text in (line.partition(":") for line in block.splitlines())}
        if "problem" in one and "files" in one:
            yield texts_of(one["files"]), one["problem"].removeprefix("compile > ").rstrip("\n")


def rows_of_page(source):
    """The texts that a table of a page has, with the line that is printed for each: those that a cell has whole."""
    return re.findall(r"^\| `([^`]+)`[^`|]* \| `(a\.proto:[^`]+)` \|$", source, re.M)


def texts_of(written, between=" | "):
    """Texts by path; a path ends with `.proto`."""
    return dict(re.fullmatch(r"(.*?\.proto) ?(.*)", file, re.S).groups() for file in written.split(between) if file)


def step_of(written):
    asked, _, reported = written.partition(" > ")
    return (*asked.split(" "), "", "")[:3] + (reported,)


ROWS = [
    (ONE, [("A.b_c", "d_e", done("a.proto 38 b_c d_e", json='"jsonName":"dE"'))]),
    (ONE[:-3] + ' [json_name = "q"]; }', [("A.b_c", "d_e", done("a.proto 38 b_c d_e", json='"jsonName":"q"'))]),
    (INNER % "Inner", [("p.A.B", "Inner", refused("7 Captured a.proto:1:73"))]),
    (INNER % ".p.Inner", [("p.A.B", "Inner", done("a.proto 67 B Inner"))]),
    (
        P3 + "package p; message M {} message Q { message N {} M x = 1; }",
        [("p.M", "N", refused("7 Captured a.proto:1:69"))],
    ),
    (ENUMS, [("M.V", "W", done("a.proto 21 V W", "a.proto 58 V W"))]),
    (MAP, [("M.foo", "FooEntry", done("a.proto 49 foo FooEntry", json=MAP_JSON))]),
    (P3 + TWO % ("", ""), [("M.x", "foo_bar", refused("9 JsonClash"))]),
    ('syntax = "proto2"; ' + TWO % ("optional ", "optional "), [("M.x", "foo_bar", done("a.proto 75 x foo_bar"))]),
    (
        P3 + "package p; message M {} message A { p . /* x */ M f = 1; }",
        [("p.M", "N", done("a.proto 38 M N", "a.proto 67 M N"))],
    ),
    (
        ONE,
        [
            ("A", "message", refused("4 KeywordName")),
            ("A", "A", refused("5 SameName")),
            ("A", "9x", refused("3 NotAnIdentifier")),
            ("A.q", "r", refused("1 UnknownTarget")),
            ("A.b_c", "message", done("a.proto 38 b_c message")),
        ],
    ),
    (
        ONE,
        [
            ("A.b_c", "d_e", done("a.proto 38 b_c d_e")),
            ("A.b_c", "x", refused("1 UnknownTarget")),
            ("A.d_e", "f", done("a.proto 38 d_e f")),
        ],
    ),
    (
        P3 + "package p; message A { message B { message C {} } A.B.C c = 1; }",
        [("p.A.B", "X", done("a.proto 50 B X", "a.proto 71 B X"))],
    ),
    ({"a.proto": "package p; message A {}", "b.proto": "package p.q;"}, [("p.A", "q", refused("6 Collision"))]),
    (
        {
            "a.proto": P3 + 'package a.b; import "c.proto"; message A { c.X f = 1; } service S {}',
            "c.proto": P3 + "package a.c; message X {}",
        },
        [("a.b.S", "c", refused("7 Captured a.proto:1:63"))],
    ),
    (
        {"a.proto": P3 + "message M {}", "b.proto": USING_M % "B", "c.proto": USING_M % "C"},
        [("M", "N", done("a.proto 27 M N", "b.proto 49 M N", "c.proto 49 M N"))],
    ),
    (
        "message BarEntry {} message M { map<string,int32> foo = 1; optional BarEntry x = 2; }",
        [("M.foo", "bar", refused("7 Captured a.proto:1:69"))],
    ),
    ("message M { map<int32,int32> FooEntry = 1; }", [("M.FooEntry", "foo", done("a.proto 29 FooEntry foo"))]),
    ("message M { map<int32,int32> foo = 1; }", [("M.foo", "f_oo", done("a.proto 29 foo f_oo"))]),
    (
        P3 + 'package p; message M { reserved "a"; map<string,int32> b = 1; oneof o { M c = 2; } }',
        [
            ("p", "q", refused("2 KindNotAllowed")),
            ("p.M.o", "q", refused("2 KindNotAllowed")),
            ("p.M.BEntry", "q", refused("2 KindNotAllowed")),
            ("p.M.BEntry.key", "q", refused("2 KindNotAllowed")),
            ("p.M.b", "a", refused("8 NameReserved")),
            ("p.M.c", "a", refused("8 NameReserved")),
            ("p.M.b", "BEntry", done("a.proto 74 b BEntry")),
        ],
    ),
    (
        P3 + 'enum E { reserved "W"; V = 0; }',
        [
            ("V", "W", refused("8 NameReserved")),
            ("V", "option", refused("4 KeywordName")),
            ("V", "message", done("a.proto 42 V message")),
        ],
    ),
]
ONE_EXTENSION = "message M { extensions 100 to 199; } extend M { optional int32 x = %s; }"
OF_TWO = {"a.proto": "message M { extensions 1; }", "b.proto": 'import "a.proto"; extend M { optional int32 x = 1; }'}
# Files, and all faults of the first faulty phase as they are printed, without what is behind the number.
FAULTS = [
    (ONE_EXTENSION % "100", []),
    (ONE_EXTENSION % "99", ["a.proto:1:68: 36"]),
    (ONE_EXTENSION % "200", ["a.proto:1:68: 36"]),
    ("extend M { optional int32 x = 5; } message M { extensions 9 to 1; }", ["a.proto:1:31: 36", "a.proto:1:59: 17"]),
    ("message M { reserved 1; extensions 2; } extend M { optional int32 x = 1; }", ["a.proto:1:71: 36"]),
    ("message M { extensions 1; } extend M { optional int32 x = 0x1; repeated M y = 01; }", ["a.proto:1:79: 37"]),
    ({**OF_TWO, "c.proto": 'import "a.proto"; package c; extend M { optional int32 x = 1; }'}, ["c.proto:1:60: 37"]),
    ("message M { extensions 1; } extend M { required int32 x = 1; }", ["a.proto:1:40: 38"]),
    ("message M { extensions 1; } extend M { int32 x = 1; }", ["a.proto:1:40: 25"]),
    ('message M { extensions 1; } extend M { optional int32 x = 1 [json_name = "q"]; }', ["a.proto:1:62: 27"]),
    ('message M { extensions 1; } extend M { optional int32 x = 1 [json_name = "x"]; }', ["a.proto:1:62: 27"]),
    (
        P3 + "message M {} extend M { required int32 x = 1; }",
        ["a.proto:1:33: 31", "a.proto:1:44: 31", "a.proto:1:44: 38", "a.proto:1:63: 36"],
    ),
    # Paths, by their bytes; a file too many is found where the paths are in order.
    ([("b c.proto", ""), ("B.txt", "#"), ("a.proto", "#")], ["B.txt:1:1: 33", "b c.proto:1:1: 33"]),
    ([("a.proto", ""), ("b.proto", ""), ("a.proto", "")], ["a.proto:1:1: 34"]),
    ([("a/../b.proto", ""), ("a/../b.proto", "")], ["a/../b.proto:1:1: 33", "a/../b.proto:1:1: 34"]),
    ([(f"{number}.proto", "") for number in range(10000, 14098)], ["14096.proto:1:1: 35"]),
    # One fault of the text a file; the grammar is not looked at.
    (
        {"a.proto": "message", "b.proto": "a\n #", "c.proto": "08 #", "d.proto": '"\xff"'},
        ["b.proto:2:2: 3", "c.proto:1:1: 7", "d.proto:1:1: 2"],
    ),
    ({"a.proto": '"\\q" /*', "b.proto": "'\\'", "c.proto": "/* /*/"}, ["a.proto:1:1: 6", "b.proto:1:1: 5"]),
    # One of the grammar a file.
    (
        {"a.proto": "message M { reserved 1, ; }", "b.proto": 'import "x";', "c.proto": "message M {"},
        ["a.proto:1:13: 8", "c.proto:1:12: 8"],
    ),
    ({"a.proto": "enum E { A = 0 } }", "b.proto": "; " + "{" * 40}, ["a.proto:1:10: 8", "b.proto:1:35: 9"]),
    # Imports: a path that is not there is named twice, and one that leads back.
    (
        {"a.proto": 'import "x"; import "b.proto"; import "x";', "b.proto": 'import "a.proto"; import public "a.proto";'},
        [
            "a.proto:1:8: 10",
            "a.proto:1:20: 12",
            "a.proto:1:38: 10",
            "a.proto:1:38: 11",
            "b.proto:1:8: 12",
            "b.proto:1:33: 11",
            "b.proto:1:33: 12",
        ],
    ),
    # Names: a map field with its entry, its key and its value counts once; a prefix of a package comes before all files.
    (
        "message M { message FooEntry { optional M key = 1; } map<int32,M> foo = 1; optional N foo = 2; }",
        ["a.proto:1:67: 13", "a.proto:1:87: 13"],
    ),
    ({"a.proto": "message p {} enum q { r = 0; }", "b.proto": "package p.s; enum q { r = 0; s = 1; }"}, ["a.proto:1:9: 13"]),
    ({"a.proto": "enum q { r = 0; }", "b.proto": "enum p { r = 0; q = 1; }"}, ["b.proto:1:10: 13", "b.proto:1:17: 13"]),
    # References: the fields' numbers are not looked at.
    (
        "enum E { V = 0; } message M { map<string,X> foo = 0; optional FooEntry y = 0; } service S { rpc R (E) returns (.E); } extend E {}",
        ["a.proto:1:42: 14", "a.proto:1:63: 16", "a.proto:1:100: 15", "a.proto:1:112: 15", "a.proto:1:126: 15"],
    ),
    # Numbers and ranges.
    (
        "message M { optional int32 a = 0; optional int32 a2 = 0; }",
        ["a.proto:1:32: 17", "a.proto:1:55: 17", "a.proto:1:55: 18"],
    ),
    (
        "message M { reserved 2, 1 to max, 9 to 8; extensions 0 to 1; optional M b = 1; }",
        ["a.proto:1:25: 21", "a.proto:1:35: 17", "a.proto:1:54: 17", "a.proto:1:54: 21", "a.proto:1:77: 19"],
    ),
    (
        "enum E { reserved -3 to -5, -4; A = -4; B = 0; C = 0; D = -2147483649; reserved 'B', 'x', \"\\102\"; }",
        ["a.proto:1:19: 17", "a.proto:1:37: 19", "a.proto:1:41: 20", "a.proto:1:52: 32", "a.proto:1:59: 17", "a.proto:1:91: 20"],
    ),
    # Options: one that is wrong in two ways counts once, of two defaults the first has to fit.
    (
        "message M { optional bytes a = 1 [default = 'x', default = 0, packed = 1, packed = true, json_name = 'x']; }",
        ["a.proto:1:35: 28", "a.proto:1:50: 27", "a.proto:1:63: 27", "a.proto:1:75: 27"],
    ),
    # Labels, and what proto3 does not have.
    (
        P3 + "message M { required M a_b = 1 [default = 1]; M aB = 2; oneof o {} extensions 9; map<bytes,E> c = 3; } enum E { X = 1; }",
        [
            "a.proto:1:32: 31",
            "a.proto:1:52: 31",
            "a.proto:1:68: 30",
            "a.proto:1:82: 29",
            "a.proto:1:87: 31",
            "a.proto:1:105: 26",
            "a.proto:1:111: 23",
            "a.proto:1:136: 23",
        ],
    ),
    ({"a.proto": "enum E {}", "b.proto": P3 + 'import "a.proto"; message M { E e = 1; }'}, ["a.proto:1:6: 22", "b.proto:1:50: 24"]),
]

MESSAGE_OPTIONS = 'syntax = "proto2"; package google.protobuf; message MessageOptions { extensions 1000 to max; }'
CUSTOM = (
    P3 + 'package p; import "d.proto"; extend google.protobuf.MessageOptions { T x = 1000; }'
    " message T { int32 a = 1; U u = 2; } message U { int32 b = 1; }"
    " message A { option (x)%s; int32 f = 1; message B { option %s.a = 3; } }"
)
WITH_CUSTOM = {"a.proto": CUSTOM % (" = { a: 1 u { b: 2 } }", "(p.x)"), "d.proto": MESSAGE_OPTIONS}
TWICE = "message M { extensions 1; } extend M { optional int32 x = 1; }"
ONE_OPTION = P3 + 'import "d.proto"; extend google.protobuf.FieldOptions { %sstring x = 1000; }'
FIELD_OPTIONS = MESSAGE_OPTIONS.replace("Message", "Field")
# Files, and all faults of the first faulty phase: those of files that are read as they are written, and those without the word.
WRITTEN = [
    (WITH_CUSTOM, [], ["a.proto:1:194: 3"]),
    ({**WITH_CUSTOM, "a.proto": CUSTOM % (" = { a u { b 2 } }", "(p.x)")}, [], ["a.proto:1:178: 8"]),
    ("message M : {}", ["a.proto:1:1: 8"], ["a.proto:1:11: 3"]),
    ("option (x) = {", ["a.proto:1:1: 8"], ["a.proto:1:1: 8"]),
    ("option (x) = { a: 1; }", ["a.proto:1:1: 8"], ["a.proto:1:17: 3"]),
    ("option (x) = { } };", ["a.proto:1:1: 8"], ["a.proto:1:1: 8"]),
    ("option (x) = { [p.x]: 1 };", ["a.proto:1:1: 8"], ["a.proto:1:21: 3"]),
    ("option (x) = { a [1] };", ["a.proto:1:1: 8"], ["a.proto:1:1: 8"]),
    ("option x = { };", ["a.proto:1:1: 8"], ["a.proto:1:1: 8"]),
    ("option () = 1;", ["a.proto:1:1: 8"], ["a.proto:1:1: 8"]),
    ("option (.) = 1;", ["a.proto:1:1: 8"], ["a.proto:1:1: 8"]),
    ("option (x). = 1;", ["a.proto:1:1: 8"], ["a.proto:1:1: 8"]),
    ("option (x).(y) = 1;", ["a.proto:1:1: 8"], ["a.proto:1:1: 8"]),
    ("option (x) = 1.5;", ["a.proto:1:1: 8"], ["a.proto:1:1: 8"]),
    ("option (x) = ;", ["a.proto:1:1: 8"], ["a.proto:1:1: 8"]),
    ("message M { oneof o { option a = 1; int32 b = 1; } }", ["a.proto:1:23: 8"], ["a.proto:1:23: 8"]),
    ("message M { oneof o { option (a) = 1; } }", ["a.proto:1:31: 14"], ["a.proto:1:23: 8"]),
    ("message M { optional M m = 1 [deprecated = true, (a) = { ]; }", ["a.proto:1:13: 8"], ["a.proto:1:13: 8"]),
    ("enum E { A = 0 [(a) = {]}]; B = 0; }", ["a.proto:1:18: 14"], ["a.proto:1:10: 8"]),
    ("option (x) = " + "{" * 33, ["a.proto:1:46: 9"], ["a.proto:1:46: 9"]),
    ("message M { option (x) = " + "{" * 31 + "}" * 31 + "; }", ["a.proto:1:21: 14"], ["a.proto:1:13: 8"]),
    ("message M { option (x) = " + "{" * 32 + "}" * 32 + "; }", ["a.proto:1:57: 9"], ["a.proto:1:57: 9"]),
    ('option (x) = { a: "\\q" };', ["a.proto:1:19: 6"], ["a.proto:1:17: 3"]),
    ("option (x) = { a # b };", ["a.proto:1:18: 3"], ["a.proto:1:18: 3"]),
    ("option (x) = { a / b };", ["a.proto:1:18: 3"], ["a.proto:1:18: 3"]),
    ("option (x) = { a: 1.5 };", ["a.proto:1:9: 14"], ["a.proto:1:17: 3"]),
    ("option (x) = { a: 1e5 };", ["a.proto:1:19: 7"], ["a.proto:1:17: 3"]),
    ("option (x) = { ) ; ] , = };", ["a.proto:1:9: 14"], ["a.proto:1:1: 8"]),
    ("message M { option (x) = { ) ; ] , = }; }", ["a.proto:1:21: 14"], ["a.proto:1:13: 8"]),
    ("enum E { A = 0 [(x) = { = ) ; ]}]; }", ["a.proto:1:18: 14"], ["a.proto:1:10: 8"]),
    ("option (x) = { a: [ 1 };", ["a.proto:1:9: 14"], ["a.proto:1:17: 3"]),
    ("message M { option (x) = { a: [ b { c: [ } }; }", ["a.proto:1:21: 14"], ["a.proto:1:29: 3"]),
    ("enum E { A = 0 [(x) = { a: [ }]; }", ["a.proto:1:18: 14"], ["a.proto:1:26: 3"]),
    ({"a.proto": 'import weak "b.proto";', "b.proto": ""}, [], ["a.proto:1:1: 8"]),
    ({"a.proto": 'import weak "b.proto"; import "a.proto";', "b.proto": 'import weak "a.proto";'}, ["a.proto:1:13: 12", "a.proto:1:31: 12", "b.proto:1:13: 12"], ["a.proto:1:1: 8", "b.proto:1:1: 8"]),
    ("message weak { optional .weak weak = 1; enum E { Weak = 0; } } service S { rpc weak(.weak) returns (.weak); }", [], []),
    ('import weak "c.proto"; import weak "c.proto";', ["a.proto:1:13: 10", "a.proto:1:36: 10", "a.proto:1:36: 11"], ["a.proto:1:1: 8"]),
    ('import public weak "b.proto";', ["a.proto:1:1: 8"], ["a.proto:1:1: 8"]),
    ('import weak public "b.proto";', ["a.proto:1:1: 8"], ["a.proto:1:1: 8"]),
    ('message M { import weak "b.proto"; }', ["a.proto:1:13: 8"], ["a.proto:1:13: 8"]),
    ("option (optional.stream) = -0x1; option (.message).to.max = 'a' \"b\";", ["a.proto:1:9: 14", "a.proto:1:42: 14"], ["a.proto:1:1: 8"]),
    ({"a.proto": ONE_OPTION % "", "d.proto": FIELD_OPTIONS}, [], ["a.proto:1:38: 31"]),
    ({"a.proto": ONE_OPTION % "required ", "d.proto": FIELD_OPTIONS}, ["a.proto:1:76: 31", "a.proto:1:76: 38"], ["a.proto:1:38: 31", "a.proto:1:76: 31", "a.proto:1:76: 38"]),
    ({"a.proto": TWICE, "b.proto": 'import "a.proto"; extend M { optional int32 y = 1; }'}, [], ["b.proto:1:49: 37"]),
    (TWICE + " extend M { optional int32 y = 1; }", ["a.proto:1:94: 37"], ["a.proto:1:94: 37"]),
    (
        "option ruby_package = 'a'; option java_generic_services = 'a'; message M { option ctype = CORD; optional string a = 1 [ctype = CORD]; }",
        ["a.proto:1:35: 27", "a.proto:1:83: 27"],
        ["a.proto:1:8: 27", "a.proto:1:35: 27", "a.proto:1:83: 27", "a.proto:1:120: 27"],
    ),
]
# A proto2 file with options messages of its own.
FOO = (
    "package google.protobuf; message Foo {} message B { option deprecated = true; }"
    " message FileOptions { optional bool deprecated = 23; enum E { X = 0; } }"
)
# The extension apart from the message that has the option, and from a type that its value fills.
APART = {
    "a.proto": P3
    + 'package p; import "d.proto"; import "u.proto"; extend google.protobuf.MessageOptions { T x = 1000; }'
    " message T { int32 a = 1; U u = 2; } message C { option (x) = { a: 1 u { b: 2 } }; }",
    "b.proto": P3 + 'package p; import "a.proto"; message A { option (x) = { a: 1 }; int32 f = 1; }',
    "u.proto": P3 + "package p; message U { int32 b = 1; }",
    "d.proto": MESSAGE_OPTIONS,
}
# A name that is looked up in the message around, and another that a field may have.
WITH_PATH = {"a.proto": CUSTOM % (".a = 3", "(x)"), "d.proto": MESSAGE_OPTIONS}
WITH_LONGER_PATH = {"a.proto": CUSTOM % (".a = 3", "(p.x)"), "d.proto": MESSAGE_OPTIONS}
CAPTURED_BY_IMPORT = {
    "x.proto": "import 'd.proto'; extend google.protobuf.MessageOptions { optional int32 x = 1000; }",
    "y.proto": 'syntax = "proto2"; import "x.proto"; package q; message M { option (x) = 1; }',
    "z.proto": "package q.x;",
    "d.proto": MESSAGE_OPTIONS,
}
# An option of a field; one whose name a field, a oneof, a value, an entry or a package has, too.
FIELDS_OF = "package google.protobuf; message FieldOptions { extensions 1000 to max; } extend FieldOptions { optional bool x = 1000; } "
# Two files, one with an extension and the other with an option.
OF_X = {
    "x.proto": "import 'd.proto'; extend google.protobuf.MessageOptions { optional int32 x = 1000; }",
    "y.proto": 'syntax = "proto2"; import "x.proto"; message M { option (x) = 1; }',
    "d.proto": MESSAGE_OPTIONS,
}
# An extension in the message that has the option.
INSIDE = P3 + 'package p; import "d.proto"; message A { extend google.protobuf.MessageOptions { int32 x = 1000; } option (%s) = 1; }'
OF_FIELDS = FIELDS_OF + "message A { %s optional int32 y = 1 [(%s) = true]; }"
# Files with names of options, and all faults of the first faulty phase, of files that are read as they are written.
OPTION_NAMES = [
    (OF_FIELDS % ("", "x"), []),
    (OF_FIELDS % ("", ".google.protobuf.x"), []),
    (OF_FIELDS % ("", "google.protobuf.x"), []),
    (OF_FIELDS % ("", "protobuf.x"), []),
    (OF_FIELDS % ("", ".x"), ["a.proto:1:159: 14"]),
    (OF_FIELDS % ("", "y"), ["a.proto:1:159: 14"]),
    (OF_FIELDS % ("", "A"), ["a.proto:1:159: 14"]),
    (OF_FIELDS % ("", "protobuf"), ["a.proto:1:159: 14"]),
    (OF_FIELDS % ("", "FieldOptions.x"), ["a.proto:1:159: 14"]),
    (OF_FIELDS % ("optional int32 x = 2;", "x"), ["a.proto:1:180: 14"]),
    (OF_FIELDS % ("optional int32 x = 2;", "protobuf.x"), []),
    (OF_FIELDS % ("optional int32 protobuf = 2;", "protobuf.x"), []),
    (OF_FIELDS % ("message protobuf {}", "protobuf.x"), ["a.proto:1:178: 14"]),
    (OF_FIELDS % ("oneof x { int32 b = 2; }", "x"), ["a.proto:1:183: 14"]),
    (OF_FIELDS % ("message x {}", "x"), ["a.proto:1:171: 14"]),
    (OF_FIELDS % ("enum E { x = 0; }", "x"), ["a.proto:1:176: 14"]),
    (OF_FIELDS % ("enum x { V = 0; }", "x.y"), ["a.proto:1:176: 14"]),
    (OF_FIELDS % ("map<int32,A> x = 2;", "x"), ["a.proto:1:178: 14"]),
    (OF_FIELDS % ("map<int32,A> x = 2;", "XEntry"), ["a.proto:1:178: 14"]),
    (OF_FIELDS % ("extend FieldOptions { optional bool x = 1001; }", "x"), []),
    (OF_FIELDS % ("extend FieldOptions { optional bool z = 1001 [(x) = true]; }", "A.z"), []),
    (OF_FIELDS % ("extend FieldOptions { optional bool x = 1001 [(x) = true]; }", "A.x"), []),
    (FIELDS_OF + "message A { optional int32 x = 1; enum E { V = 0 [(x) = true]; } }", ["a.proto:1:174: 14"]),
    (FIELDS_OF + "message A { optional int32 x = 1; enum E { option (x) = true; V = 0; } }", ["a.proto:1:174: 14"]),
    (FIELDS_OF + "message A { oneof x { option (x) = true; int32 b = 2; } }", ["a.proto:1:153: 14"]),
    (FIELDS_OF + "message A { optional int32 x = 1; option (x) = true; }", ["a.proto:1:165: 39"]),
    (FIELDS_OF + "message A { option (A.z) = true; extend FieldOptions { optional bool z = 1001; } }", ["a.proto:1:143: 39"]),
    (FIELDS_OF + "message A { option (z) = true; extend FieldOptions { optional bool z = 1001; } }", ["a.proto:1:143: 14"]),
    (FIELDS_OF + "option (x) = true; enum E { option (x) = true; V = 0 [(x) = true]; }", ["a.proto:1:131: 39", "a.proto:1:159: 39", "a.proto:1:178: 39"]),
    (FIELDS_OF + "service S { option (x) = true; rpc x (S) returns (S); }", ["a.proto:1:161: 14", "a.proto:1:173: 14"]),
    (FIELDS_OF + "message M {} service S { option (x) = true; rpc y (M) returns (M) { option (x) = true; } }", ["a.proto:1:156: 39", "a.proto:1:199: 39"]),
    (FIELDS_OF + "message M {} service S { rpc x (M) returns (M) { option (x) = true; } }", ["a.proto:1:180: 14"]),
    (FIELDS_OF + "message M { oneof o { option (x) = true; int32 a = 1 [(x) = true]; } }", ["a.proto:1:153: 39"]),
    ({"a.proto": INSIDE % "x", "d.proto": MESSAGE_OPTIONS}, ["a.proto:1:127: 14"]),
    ({"a.proto": INSIDE % "A.x", "d.proto": MESSAGE_OPTIONS}, []),
    (OF_X, []),
    ({**OF_X, "y.proto": 'import "z.proto"; message M { option (x) = 1; }', "z.proto": 'import "x.proto";'}, ["y.proto:1:39: 14"]),
    ({**OF_X, "y.proto": 'import "z.proto"; message M { option (x) = 1; }', "z.proto": 'import public "x.proto";'}, []),
    ({**OF_X, "y.proto": 'import "x.proto"; import "z.proto"; package q; message M { option (x) = 1; }', "z.proto": "package q.x;"}, ["y.proto:1:68: 14"]),
    (P3 + "package google.protobuf; extend %s { int32 x = 1; }" % "M", ["a.proto:1:52: 14"]),
    (
        {"a.proto": P3 + 'import "b.proto"; extend M { int32 x = 1; }', "b.proto": "message M { extensions 1; }"},
        ["a.proto:1:38: 31"],
    ),
    (
        {"a.proto": P3 + 'import "b.proto"; extend proto2.FileOptions { int32 x = 1; }', "b.proto": "package proto2; message FileOptions { extensions 1; }"},
        ["a.proto:1:38: 31"],
    ),
    (
        {
            "a.proto": P3 + 'import "b.proto"; extend google.protobuf.ExtensionRangeOptions { int32 x = 1; }',
            "b.proto": "package google; message protobuf { message ExtensionRangeOptions { extensions 1; } }",
        },
        [],
    ),
]
# Extensions of a proto3 file, which have no JSON names, and fields beside them.
EXTENDED_IN_PROTO3 = {
    "a.proto": P3
    + 'import "b.proto"; extend google.protobuf.FileOptions { int32 fooBar = 1; int32 x = 2; } message N { int32 fooBar = 1; int32 y = 2; }',
    "b.proto": "package google.protobuf; message FileOptions { extensions 1 to 9; }",
}
# Edits of files that are read as they are written, with what is printed.
WRITTEN_EDITS = [
    ({"a.proto": 'import weak "b.proto"; message M { optional B b = 1; }', "b.proto": "message B {}"}, ("drop-import", "a.proto", "b.proto"), "refused: 15 Needed a.proto:1:45\n"),
    ({"a.proto": 'import weak "b.proto";', "b.proto": ""}, ("drop-import", "a.proto", "b.proto"), "changed a.proto\n"),
    ({"a.proto": 'import weak "b.proto";', "b.proto": ""}, ("add-import", "a.proto", "b.proto"), "refused: 12 AlreadyImported\n"),
    ({"a.proto": 'import weak "b.proto";', "b.proto": ""}, ("add-import", "b.proto", "a.proto"), "refused: 14 Cycle\n"),
    (WITH_CUSTOM, ("rename", "p.A", "message"), "refused: 4 KeywordName\n"),
    (WITH_CUSTOM, ("add-import", "d.proto", "a.proto"), "refused: 14 Cycle\n"),
    (WITH_CUSTOM, ("drop-import", "a.proto", "d.proto"), "refused: 15 Needed a.proto:1:56\n"),
    (WITH_PATH, ("rename", "p.A.f", "x"), "refused: 7 Captured a.proto:1:229\n"),
    (OF_X, ("drop-import", "y.proto", "x.proto"), "refused: 15 Needed y.proto:1:58\n"),
    ({**OF_X, "z.proto": "package q; import 'y.proto'; message x {}"}, ("add-import", "y.proto", "z.proto"), "refused: 14 Cycle\n"),
    (CAPTURED_BY_IMPORT, ("add-import", "y.proto", "z.proto"), "refused: 7 Captured y.proto:1:69\n"),
    (FOO, ("rename", "google.protobuf.Foo", "M"), "changed a.proto\n"),
    (FOO, ("rename", "google.protobuf.Foo", "9"), "refused: 3 NotAnIdentifier\n"),
    ({"a.proto": "message M {} option ruby_package = ':';"}, ("rename", "M", "N"), "changed a.proto\n"),
    (EXTENDED_IN_PROTO3, ("rename", "x", "foo_bar"), "changed a.proto\n"),
    (EXTENDED_IN_PROTO3, ("rename", "N.y", "foo_bar"), "refused: 9 JsonClash\n"),
    (WITH_CUSTOM, ("rename", "p.T.a", "c"), "refused: 19 OptionValue a.proto:1:193\n"),
    (WITH_CUSTOM, ("delete-field", "p.T.a"), "refused: 19 OptionValue a.proto:1:193\n"),
    (WITH_CUSTOM, ("rename", "p.U.b", "c"), "refused: 19 OptionValue a.proto:1:202\n"),
    (WITH_CUSTOM, ("rename", "p.A.f", "b"), "refused: 19 OptionValue a.proto:1:202\n"),
    (WITH_CUSTOM, ("delete-field", "p.T.u"), "refused: 19 OptionValue a.proto:1:198\n"),
    (APART, ("rename", "p.U.b", "c"), "refused: 19 OptionValue a.proto:1:193\n"),
    (APART, ("rename", "p.A.f", "b"), "changed b.proto\n"),
    (WITH_PATH, ("rename", "p.T.a", "c"), "refused: 19 OptionValue a.proto:1:189\n"),
    (WITH_CUSTOM, ("rename", "google.protobuf.MessageOptions", "M"), "refused: 20 FixedName\n"),
    (FOO, ("rename", "google.protobuf.Foo", "MessageOptions"), "refused: 20 FixedName\n"),
    (FOO, ("delete-field", "google.protobuf.FileOptions.deprecated"), "refused: 20 FixedName\n"),
    (FOO, ("rename", "google.protobuf.FileOptions.E", "F"), "refused: 20 FixedName\n"),
    ("package google; message protobuf { message OneofOptions {} }", ("rename", "google.protobuf", "p"), "refused: 20 FixedName\n"),
]
WITHIN = {"a.proto": INSIDE % "A.x", "d.proto": MESSAGE_OPTIONS}
# Edits that are accepted, with their splices.
WRITTEN_SPLICES = [
    (WITH_CUSTOM, ("rename", "p.x", "y"), ["a.proto 90 x y", "a.proto 185 x y", "a.proto 246 x y"]),
    (WITH_CUSTOM, ("rename", "p.T", "V"), ["a.proto 88 T V", "a.proto 110 T V"]),
    (WITH_CUSTOM, ("rename", "p.A", "Q"), ["a.proto 173 A Q"]),
    (WITH_CUSTOM, ("rename", "p.A.f", "g"), ["a.proto 217 f g"]),
    (WITH_LONGER_PATH, ("rename", "p.A.f", "p"), ["a.proto 201 f p"]),
    (WITHIN, ("rename", "p.A", "Q"), ["a.proto 56 A Q", "a.proto 126 A Q"]),
    (WITHIN, ("rename", "p.A.x", "y"), ["a.proto 106 x y", "a.proto 128 x y"]),
    (OF_X, ("rename", "x", "z"), ["x.proto 73 x z", "y.proto 57 x z"]),
]
# Files that are read as they are written, with pieces of their descriptors.
WRITTEN_JSON = [
    (
        {"a.proto": 'import public "d.proto"; import weak "c.proto"; import weak "b.proto";', "b.proto": "", "c.proto": "", "d.proto": ""},
        ['{"dependency":["d.proto","c.proto","b.proto"],"name":"a.proto","publicDependency":[0],"weakDependency":[1,2]}'],
    ),
    (
        WITH_CUSTOM,
        [
            '{"field":[{"jsonName":"f","label":"LABEL_OPTIONAL","name":"f","number":1,"type":"TYPE_INT32"}],"name":"A","nestedType":[{"name":"B"}]}',
            '{"extendee":".google.protobuf.MessageOptions","label":"LABEL_OPTIONAL","name":"x","number":1000,"type":"TYPE_MESSAGE","typeName":".p.T"}',
        ],
    ),
    (
        {"a.proto": ONE_OPTION % "optional ", "d.proto": FIELD_OPTIONS},
        ['"label":"LABEL_OPTIONAL","name":"x","number":1000,"proto3Optional":true,"type":"TYPE_STRING"'],
    ),
    (
        "option java_generic_services = true; option java_generate_equals_and_hash = false; option ruby_package = 'a' 'b';"
        " package google.protobuf; message FileOptions { extensions 1000 to max; } extend FileOptions { optional bool x = 1000; }"
        " option (x) = 1;",
        ['"options":{"javaGenerateEqualsAndHash":false,"javaGenericServices":true,"rubyPackage":"ab"}'],
    ),
    (FIELDS_OF + "message M { optional string a = 1 [(x) = 1, ctype = STRING_PIECE, (x) = 1]; optional string b = 2 [(x) = 1]; }", ['"options":{"ctype":"STRING_PIECE"}', '"name":"b","number":2,"type"']),
]
