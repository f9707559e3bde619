"""Workspaces to time programs on, and the time and memory of a run.

A workspace has hundreds to thousands of files in eight packages: messages with scalar fields, references within and across
files, maps, oneofs and enums. Another has its files in hundreds of packages, one has small files with long packages and many
comments, and one has custom options.
"""

import os
import subprocess
import sys
import time

SIZES = [1_000_000, 4_000_000, 16_000_000]
MESSAGES = 20
FIELDS = 8
PACKAGES = 8
DESCRIPTOR, OPTIONS = "google/protobuf/descriptor.proto", "acme/options.proto"


def message(file, index, package):
    """A message with packed fields, a map, a oneof, and references to the message before it and to another file's."""
    lines = [f"  repeated int32 field_number_{n} = {n} [packed = true];" for n in range(1, FIELDS + 1)]
    if index > 0:
        lines.append(f"  Message{file}_{index - 1} other = 20;")
    if file >= PACKAGES:
        lines.append(f"  {package}.Message{file - PACKAGES}_{index} far = 21;")
    lines.append(f"  map<string, Kind{file}> kinds = 22;")
    lines.append("  oneof choice {\n    string text = 23;\n    bytes data = 24;\n  }")
    return f"message Message{file}_{index} {{\n" + "\n".join(lines) + "\n}\n"


def schema(file):
    package = f"bench.p{file % PACKAGES}"
    text = f'syntax = "proto3";\npackage {package};\n'
    for before in (1, PACKAGES):
        if file >= before:
            text += f'import "f{file - before:05}.proto";\n'
    for index in range(MESSAGES):
        text += message(file, index, package)
    return text + f"enum Kind{file} {{\n  KIND_{file}_ZERO = 0;\n  KIND_{file}_ONE = 1;\n}}\n"


def write(folder, size):
    """Writes files of so many bytes in all; answers their paths and how many bytes they are."""
    paths, total = [], 0
    while total < size:
        path = f"f{len(paths):05}.proto"
        text = schema(len(paths))
        with open(os.path.join(folder, path), "w") as stream:
            stream.write(text)
        paths.append(path)
        total += len(text)
    return paths, total


def write_packages(folder, files, packages):
    """Writes so many files over so many packages, each with a message that refers to those of the files before it; answers
    their paths and how many bytes they are."""
    paths, total = [], 0
    for file in range(files):
        name = f"team{file % packages}.api.v1"
        path = f"team{file % packages}/api/v1/f{file:04}.proto"
        text = f'syntax = "proto3";\npackage {name};\n'
        others = [other for other in (file - 1, file - packages, file - 7) if other >= 0]
        for other in others:
            text += f'import "{paths[other]}";\n'
        text += f"message Message{file} {{\n"
        text += "".join(f"  string field_number_{number} = {number};\n" for number in range(1, 11))
        for number, other in enumerate(others, 20):
            text += f"  .team{other % packages}.api.v1.Message{other} other_{number} = {number};\n"
        text += f"}}\nenum Kind{file} {{\n  KIND_{file}_ZERO = 0;\n  KIND_{file}_ONE = 1;\n}}\n"
        os.makedirs(os.path.dirname(os.path.join(folder, path)), exist_ok=True)
        with open(os.path.join(folder, path), "w") as stream:
            stream.write(text)
        paths.append(path)
        total += len(text)
    return paths, total


LICENSE = """// Copyright 2026 Example Authors
//
// Licensed under the Example License, Version 2.0 (the "License"); you may not use this file except in compliance with the License.
// You may obtain a copy of the License at
//
//     https://example.com/licenses/LICENSE-2.0
//
// Unless required by applicable law or agreed to in writing, software distributed under the License is distributed on an "AS IS"
// BASIS, WITHOUT WARRANTIES OR CONDITIONS OF ANY KIND, either express or implied. See the License for the specific language that
// governs permissions and limitations under the License.

"""


def documented(file, package, others):
    """A small file of a long package, with a comment on each field, value and method; `others` are the numbers and packages of files
    that it imports."""
    lines = []
    for number in range(1, 6):
        lines.append(f"  // The attribute {number} of a resource, as callers of this service see it.")
        lines.append("  // It is empty where nothing is known of the resource, and at most 256 characters long.")
        lines.append(f"  string attribute_{number} = {number};")
    for number, (other, place) in enumerate(others, 6):
        lines.append("  // The resource of another service that this one depends on.")
        lines.append(f"  {place}.Resource{other} dependency_{number} = {number};")
    fields = "\n".join(lines)
    return f"""// A resource of the service, with its state.
message Resource{file} {{
{fields}

  // The state that the resource is in.
  State{file} state = 15;
}}

// The states of a resource.
enum State{file} {{
  // Nothing is known of the state.
  STATE_{file}_UNSPECIFIED = 0;

  // The resource is in use, and may be changed by callers with the role of an editor.
  STATE_{file}_ACTIVE = 1;
}}

// The service that keeps these resources.
service Keeper{file} {{
  // Answers one of them, as it is now.
  rpc Get{file}(Resource{file}) returns (Resource{file});
}}
"""


def write_documented(folder, files):
    """Writes so many small files with long packages and comments, as services are written for others to read; answers their paths and
    how many bytes they are."""
    places, paths, total = [], [], 0
    for file in range(files):
        package = f"example.cloud.platform.area{file % 12}.products.service{file % 219}.resources.v1"
        path = package.replace(".", "/") + f"/resource_definitions_{file:04}.proto"
        others = [other for other in (file - 1, file - 219, file - 12) if other >= 0]
        imports = "".join(f'import "{paths[other]}";\n' for other in others)
        body = documented(file, package, [(other, places[other]) for other in others])
        text = f'{LICENSE}syntax = "proto3";\n\npackage {package};\n\n{imports}\n{body}'
        os.makedirs(os.path.dirname(os.path.join(folder, path)), exist_ok=True)
        with open(os.path.join(folder, path), "w") as stream:
            stream.write(text)
        places.append(package)
        paths.append(path)
        total += len(text)
    return paths, total


def declared_options():
    """The files that declare custom options, by path: the messages that are extended, with their ranges alone, and extensions."""
    kinds = {
        "FileOptions": ["string owner = 50001;"],
        "MessageOptions": ["Limit table = 50001;"],
        "FieldOptions": ["Limit limit = 50001;", "string label = 50002;"],
        "EnumOptions": ["bool open = 50001;"],
        "EnumValueOptions": ["int32 weight = 50001;"],
    }
    extended = "".join(f"message {kind} {{ extensions 1000 to max; }}\n" for kind in kinds)
    extensions = "".join(f"extend google.protobuf.{kind} {{ {' '.join(fields)} }}\n" for kind, fields in kinds.items())
    limit = "message Limit { int32 least = 1; repeated string words = 2; }\n"
    return {
        DESCRIPTOR: f'syntax = "proto2";\npackage google.protobuf;\n{extended}',
        OPTIONS: f'syntax = "proto3";\npackage acme;\nimport "{DESCRIPTOR}";\n{limit}{extensions}',
    }


def with_options(file):
    """A file with ten custom options: of the file, a message, six fields, an enum and a value."""
    before = f'import "f{file - 1:04}.proto";\n' if file else ""
    other = f"  Message{file - 1} other = 20;\n" if file else ""
    limited = "".join(f'  int32 field_number_{n} = {n} [(acme.limit) = {{ least: {n} words: ["a", "b{n}"] }}];\n' for n in range(1, 5))
    labelled = "".join(f'  string field_number_{n} = {n} [(acme.label) = "field {n}"];\n' for n in (5, 6))
    table = f'  option (acme.table) = {{ least: {file} words: "message" }};\n'
    values = f"  option (acme.open) = true;\n  KIND_{file}_ZERO = 0;\n  KIND_{file}_ONE = 1 [(acme.weight) = -{file}];\n"
    head = f'syntax = "proto3";\npackage bench;\nimport "{OPTIONS}";\n{before}option (acme.owner) = "team {file % 7}";\n'
    return f"{head}message Message{file} {{\n{table}{limited}{labelled}{other}}}\nenum Kind{file} {{\n{values}}}\n"


def write_with_options(folder, files):
    """Writes so many files with ten custom options each, and those that declare them; answers their paths and how many bytes they are."""
    texts = {**declared_options(), **{f"f{file:04}.proto": with_options(file) for file in range(files)}}
    for path, text in texts.items():
        os.makedirs(os.path.dirname(os.path.join(folder, path)), exist_ok=True)
        with open(os.path.join(folder, path), "w") as stream:
            stream.write(text)
    return [*texts], sum(map(len, texts.values()))


def run(words, folder):
    """The seconds and the KiB of one run."""
    start = time.perf_counter()
    child = subprocess.Popen(words, cwd=folder, stdout=subprocess.DEVNULL, stderr=subprocess.DEVNULL)
    _, status, usage = os.wait4(child.pid, 0)
    seconds = time.perf_counter() - start
    child.returncode = os.waitstatus_to_exitcode(status)
    if child.returncode != 0:
        sys.exit(f"{words[0]} ended with status {child.returncode}")
    return seconds, usage.ru_maxrss
