"""Writes findings in the formats that code hosts read: annotations of GitHub, SARIF 2.1.0, JUnit's XML, and JSON lines."""
import hashlib
import html
import json
import os
import re
import urllib.parse

# What no text of XML may have.
NO_XML = re.compile("[^\t\n\r\x20-\ud7ff\ue000-\ufffd\U00010000-\U0010ffff]")
SCHEMA = "https://json.schemastore.org/sarif-2.1.0.json"


class Finding:
    """A fault (its number and name), or what a lint rule found (the rule, and the name that it prints); lines and columns as the program prints them."""

    def __init__(self, path, line, column, number, rule, name):
        self.path, self.line, self.column = path, line, column
        # A fault has a number and no rule, other findings a rule and no number.
        self.number, self.rule, self.name = number, rule, name
        self.sentence, self.cause = "", ""

    def label(self):
        """What the program prints after the place."""
        return f"{self.number} {self.name}" if self.rule is None else f"{self.rule} {self.name}"

    def identifier(self):
        """What findings of one kind have in common."""
        return self.name if self.rule is None else self.rule

    def level(self):
        return "error" if self.rule is None else "warning"

    def message(self):
        """The label with its sentence, and with its usual cause where one was found."""
        return f"{self.label()}: {self.sentence}" + (f" (here: {self.cause})" if self.cause else "")


class Report:
    """Findings, the folder of the schemas as seen from where the tool runs, and what the program is called."""

    def __init__(self, root, findings, version):
        self.root, self.findings, self.version, self.lines = root, findings, version, {}

    def path(self, finding):
        """The path of a file from the folder in which the tool runs, where the schemas are below that."""
        root = os.path.relpath(self.root) if os.path.isabs(self.root) else self.root
        return os.path.normpath(os.path.join(self.root if root.startswith("..") else root, finding.path))

    def column(self, finding):
        """The column in characters, where the program counts bytes; as it is where the file cannot be read."""
        if finding.path not in self.lines:
            try:
                with open(os.path.join(self.root, finding.path), "rb") as file:
                    self.lines[finding.path] = file.read().split(b"\n")
            except (OSError, ValueError):
                self.lines[finding.path] = []
        lines = self.lines[finding.path]
        if finding.line > len(lines):
            return finding.column
        return len(lines[finding.line - 1][: finding.column - 1].decode(errors="replace")) + 1


# ---- the formats


def text(report):
    """Lines as the program prints them, with the cause behind them where one was found."""
    lines = (f"{it.path}:{it.line}:{it.column}: {it.label()}" + (f" ({it.cause})" if it.cause else "") for it in report.findings)
    return "".join(f"{line}\n" for line in lines)


def json_lines(report):
    """One object a finding, a line each; the column counts bytes."""
    lines = []
    for it in report.findings:
        said = {"path": report.path(it), "line": it.line, "column": it.column, "level": it.level()}
        said |= {"number": it.number, "fault": it.name} if it.rule is None else {"rule": it.rule, "name": it.name}
        lines.append(json.dumps({**said, "sentence": it.sentence, **({"cause": it.cause} if it.cause else {})}, ensure_ascii=False))
    return "".join(f"{line}\n" for line in lines)


def github(report):
    """Workflow commands, a line each, that GitHub shows beside the lines of a change."""

    def value(text, more=""):
        return re.sub(f"[%\r\n{more}]", lambda it: f"%{ord(it[0]):02X}", str(text))

    lines = []
    for it in report.findings:
        place = {"file": report.path(it), "line": it.line, "col": report.column(it), "title": it.label()}
        lines.append(f"::{it.level()} " + ",".join(f"{key}={value(text, ':,')}" for key, text in place.items()) + f"::{value(it.message())}")
    return "".join(f"{line}\n" for line in lines)


def result(report, finding, numbers):
    """A finding in the form of SARIF."""
    path = report.path(finding)
    # A finding is the same where its line alone has changed, as for a base.
    same = hashlib.sha256("\0".join([path, finding.identifier(), finding.name]).encode()).hexdigest()
    region = {"startLine": finding.line, "startColumn": report.column(finding)}
    uri = ("file://" if os.path.isabs(path) else "") + urllib.parse.quote(path)
    return {
        "ruleId": finding.identifier(),
        "ruleIndex": numbers[finding.identifier()],
        "level": finding.level(),
        "message": {"text": finding.message()},
        "locations": [{"physicalLocation": {"artifactLocation": {"uri": uri}, "region": region}}],
        "partialFingerprints": {"pathRuleAndName/v1": same},
    }


def sarif(report):
    """A log of SARIF 2.1.0 with one run; columns count characters."""
    first = {}
    for it in report.findings:
        first.setdefault(it.identifier(), it)
    numbers = {identifier: number for number, identifier in enumerate(sorted(first))}
    rules = [{"id": name, "shortDescription": {"text": first[name].sentence}, "defaultConfiguration": {"level": first[name].level()}} for name in numbers]
    driver = {"name": "protoref", "version": report.version, "rules": rules}
    run = {"tool": {"driver": driver}, "columnKind": "unicodeCodePoints", "results": [result(report, it, numbers) for it in report.findings]}
    return json.dumps({"$schema": SCHEMA, "version": "2.1.0", "runs": [run]}, indent=2, ensure_ascii=False) + "\n"


def junit(report):
    """A suite of tests in JUnit's XML: each finding is a test that failed, and one passes where there is none."""

    def plain(text):
        return re.sub("[\n\r\t]", lambda it: f"&#{ord(it[0])};", html.escape(NO_XML.sub("\ufffd", text)))

    def attribute(text):
        return f'"{plain(text)}"'

    cases = []
    for it in report.findings:
        path = report.path(it)
        said = plain(f"{path}:{it.line}:{it.column}: {it.message()}")
        cases.append(
            f"    <testcase classname={attribute(path)} name={attribute(it.label())} file={attribute(path)} line=\"{it.line}\">\n"
            f"      <failure type={attribute(it.identifier())} message={attribute(it.message())}>{said}</failure>\n"
            "    </testcase>\n"
        )
    failures = len(cases)
    cases = cases or [f"    <testcase classname={attribute(report.root)} name=\"nothing is found\"/>\n"]
    counts = f"tests=\"{len(cases)}\" failures=\"{failures}\" errors=\"0\""
    body = f"  <testsuite name=\"protoref\" {counts}>\n{''.join(cases)}  </testsuite>\n"
    return f"<?xml version=\"1.0\" encoding=\"UTF-8\"?>\n<testsuites {counts}>\n{body}</testsuites>\n"


FORMATS = {"text": text, "github": github, "sarif": sarif, "junit": junit, "json": json_lines}
