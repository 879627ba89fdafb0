#!/usr/bin/env python3
"""Writes Gale's Verus sources as plain Rust, with every executable body as it stands.

    strip.py SOURCE_FOLDER OUTPUT_FOLDER

Reads src--NAME.rs.txt, writes NAME.rs and a lib.rs that declares all of them. It only takes lines out: the
verus! wrapping, vstd imports, spec and proof functions, and the clauses of functions and loops; and in a
signature it writes -> T for -> (name: T). Whatever it does not know, it refuses.
"""

import re
import sys
from pathlib import Path

CLAUSES = {"requires", "ensures", "recommends", "invariant", "decreases"}
ITEM_STARTS = {"#", "pub", "fn", "impl", "struct", "enum", "const", "use", "open", "closed", "spec", "proof", "}"}
CLAUSE_GOES_ON = {",", "else", "{"}
GHOST = CLAUSES | {
    "verus", "vstd", "verifier", "trigger", "spec", "proof", "open", "closed", "ghost", "tracked", "Ghost", "Tracked",
    "assert", "assume", "forall", "exists", "choose", "old", "int", "nat", "reveal", "returns",
    "===", "!==", "==>", "<==", "<==>", "&&&", "|||", "@",
}

TOKEN = re.compile(
    r"(?P<blank>\s+)|(?P<comment>//[^\n]*|/\*.*?\*/)|(?P<word>\w+)"
    r"|(?P<sign><==>|==>|<==|===|!==|&&&|\|\|\||->|=>|::|[^\w\s\"'])",
    re.DOTALL,
)
FUNCTION_LINE = re.compile(r"^( *)(?:pub )?fn (\w+)")
WHILE_LINE = re.compile(r"^( *)while .*[^{]$")


class Refused(Exception):
    pass


class Token:
    def __init__(self, text, line, column):
        self.text, self.line, self.column = text, line, column


def tokens_of(text):
    """The tokens without blanks and comments. String and character literals are refused."""
    found, at, line, line_start = [], 0, 1, 0
    while at < len(text):
        match = TOKEN.match(text, at)
        if match is None:
            raise Refused(f"line {line}: cannot read {text[at]!r}")
        piece = match.group()
        if match.lastgroup in ("word", "sign"):
            found.append(Token(piece, line, at - line_start))
        line += piece.count("\n")
        if "\n" in piece:
            line_start = at + piece.rindex("\n") + 1
        at = match.end()
    return found


def partners_of(tokens):
    """For the index of an opening bracket, the index of the closing one."""
    closing, open_ones, partner = {"(": ")", "[": "]", "{": "}"}, [], {}
    for i, token in enumerate(tokens):
        if token.text in closing:
            open_ones.append(i)
        elif token.text in closing.values():
            if not open_ones or closing[tokens[open_ones[-1]].text] != token.text:
                raise Refused(f"line {token.line}: brackets do not match")
            partner[open_ones.pop()] = i
    if open_ones:
        raise Refused(f"line {tokens[open_ones[-1]].line}: bracket is never closed")
    return partner


class Stripper:
    def __init__(self, text):
        self.lines = text.splitlines()
        self.tokens = tokens_of(text)
        self.partner = partners_of(self.tokens)
        self.dropped = set()
        self.items(0, len(self.tokens))

    def plain(self):
        return [line for number, line in enumerate(self.lines, 1) if number not in self.dropped]

    def text(self, i):
        return self.tokens[i].text if i < len(self.tokens) else "}"

    def refuse(self, i, why):
        raise Refused(f"line {self.tokens[i].line}: {why}: {self.lines[self.tokens[i].line - 1].strip()}")

    def expect(self, i, text):
        if self.text(i) != text:
            self.refuse(i, f"expected {text}")

    def find(self, i, text):
        """The first such token from i on that stands outside all brackets opened from i on."""
        while self.text(i) != text:
            if self.text(i) in ("}", ";"):
                self.refuse(i, f"no {text}")
            i = self.partner.get(i, i) + 1
        return i

    def drop(self, first, last):
        """Takes out the lines of these tokens, which must hold nothing else."""
        starts_line = first == 0 or self.tokens[first - 1].line < self.tokens[first].line
        ends_line = last + 1 == len(self.tokens) or self.tokens[last + 1].line > self.tokens[last].line
        if not starts_line or not ends_line:
            self.refuse(first, "shares a line with code that stays")
        self.dropped.update(range(self.tokens[first].line, self.tokens[last].line + 1))

    def drop_comment_above(self, i):
        line = self.tokens[i].line - 1
        while self.lines[line - 1].lstrip().startswith("///"):
            self.dropped.add(line)
            line -= 1

    def items(self, i, end):
        while i < end:
            i = self.item(i)

    def item(self, first):
        i = first
        while self.text(i) == "#":
            self.expect(i + 1, "[")
            i = self.partner[i + 1] + 1
        if self.text(i) == "pub":
            i += 1
        if self.text(i) in ("open", "closed"):
            i += 1
            self.expect(i, "spec")
        kind = self.text(i)
        if kind in ("spec", "proof"):
            return self.ghost_function(first, i + 1)
        if kind == "fn":
            return self.function(i)
        if kind in ("use", "const"):
            return self.declaration(first, i)
        if kind in ("struct", "enum"):
            return self.partner[self.find(i, "{")] + 1
        if kind == "impl":
            opening = self.find(i, "{")
            self.items(opening + 1, self.partner[opening])
            return self.partner[opening] + 1
        if kind == "verus":
            return self.wrapping(i)
        return self.refuse(i, "unknown item")

    def wrapping(self, i):
        self.expect(i + 1, "!")
        self.expect(i + 2, "{")
        closing = self.partner[i + 2]
        self.drop(i, i + 2)
        self.drop(closing, closing)
        self.items(i + 3, closing)
        return closing + 1

    def declaration(self, first, i):
        end = self.find(i, ";")
        if self.text(i) == "use" and self.text(i + 1) == "vstd":
            self.drop(first, end)
        return end + 1

    def ghost_function(self, first, i):
        self.expect(i, "fn")
        end = self.partner[self.function_body(i)]
        self.drop(first, end)
        self.drop_comment_above(first)
        return end + 1

    def function_body(self, i):
        """The opening brace of the group after which the next item starts."""
        while True:
            if self.text(i) in (";", "}"):
                self.refuse(i, "function without a body")
            after = self.partner.get(i, i) + 1
            if self.text(i) == "{":
                if self.text(after) in ITEM_STARTS:
                    return i
                if self.text(after) not in CLAUSE_GOES_ON:
                    self.refuse(after, "neither a clause nor an item")
            i = after

    def function(self, i):
        self.expect(i + 2, "(")
        body = self.function_body(i)
        after = self.partner[i + 2] + 1
        if self.text(after) == "->":
            after = self.named_return(after + 1)
        if after != body:
            self.clauses(after, body)
        self.loops(body + 1, self.partner[body])
        return self.partner[body] + 1

    def named_return(self, i):
        self.expect(i, "(")
        self.expect(i + 2, ":")
        closing = self.partner[i]
        number = self.tokens[i].line
        if self.tokens[closing].line != number:
            self.refuse(i, "return type over several lines")
        line = self.lines[number - 1]
        kept = line[self.tokens[i + 3].column : self.tokens[closing].column]
        self.lines[number - 1] = line[: self.tokens[i].column] + kept + line[self.tokens[closing].column + 1 :]
        return closing + 1

    def clauses(self, first, body):
        if self.text(first) not in CLAUSES:
            self.refuse(first, "unknown clause")
        self.drop(first, body - 1)

    def loops(self, i, end):
        for at in range(i, end):
            if self.text(at) in ("for", "loop"):
                self.refuse(at, "unknown loop")
            if self.text(at) == "while":
                self.while_clauses(at + 1)

    def while_clauses(self, i):
        while self.text(i) not in CLAUSES and self.text(i) != "{":
            i = self.partner.get(i, i) + 1
        first = i
        while self.text(i) != "{" or self.text(i - 1) != ",":
            if self.text(i) == "{" and i == first:
                return
            if self.text(i) in (";", "}"):
                self.refuse(first, "no end of these clauses")
            i = self.partner.get(i, i) + 1
        self.clauses(first, i)


def bodies(lines):
    """By the layout alone: the executable functions, and their bodies without the clauses of loops."""
    found, at = [], 0
    while at < len(lines):
        match = FUNCTION_LINE.match(lines[at])
        at += 1
        if match is None:
            continue
        indent, name = match.groups()
        opening = at - 1 if lines[at - 1].endswith("{") else line_after(lines, indent + "{", at)
        end = line_after(lines, indent + "}", opening)
        if any(FUNCTION_LINE.match(line) for line in lines[at:end]):
            raise Refused(f"the layout of {name} is not known")
        found.append((name, without_loop_clauses(lines[opening + 1 : end])))
        at = end
    return found


def line_after(lines, wanted, at):
    if wanted not in lines[at:]:
        raise Refused(f"the layout is not known: no {wanted!r} after line {at}")
    return lines.index(wanted, at)


def without_loop_clauses(lines):
    kept, waiting_for = [], None
    for line in lines:
        if line == waiting_for:
            waiting_for = None
        if waiting_for is None:
            kept.append(line)
            match = WHILE_LINE.match(line)
            waiting_for = match.group(1) + "{" if match else None
    return kept


def check(source_lines, plain_lines):
    """Holds the result against the source by layout, which the token reader above does not look at."""
    before, after = bodies(source_lines), bodies(plain_lines)
    if [name for name, _ in before] != [name for name, _ in after]:
        raise Refused("an executable function is missing")
    for (name, wanted), (_, got) in zip(before, after):
        if wanted != got:
            raise Refused(f"the body of {name} is not as in the source")
    for token in tokens_of("\n".join(plain_lines)):
        if token.text in GHOST or re.fullmatch(r"\d+(int|nat)", token.text):
            raise Refused(f"{token.text} is left: {plain_lines[token.line - 1].strip()}")
    return len(after), sum(len(body) for _, body in after)


def strip(path):
    source = path.read_text(encoding="utf-8")
    plain = Stripper(source).plain()
    return plain, check(source.splitlines(), plain)


def main(source_folder, output_folder):
    paths = sorted(Path(source_folder).glob("src--*.rs.txt"))
    if not paths:
        sys.exit(f"strip.py: no src--*.rs.txt in {source_folder}")
    output = Path(output_folder)
    output.mkdir(parents=True, exist_ok=True)
    names, functions, body_lines = [], 0, 0
    for path in paths:
        try:
            plain, (count, length) = strip(path)
        except Refused as problem:
            sys.exit(f"strip.py: {path.name}: {problem}")
        name = path.name[len("src--") : -len(".rs.txt")]
        (output / f"{name}.rs").write_text("\n".join(plain) + "\n", encoding="utf-8")
        names.append(name)
        functions += count
        body_lines += length
    allowed = "#![allow(dead_code, unused_imports, unused_variables, unused_parens, clippy::all)]\n"
    (output / "lib.rs").write_text(allowed + "".join(f"pub mod {name};\n" for name in names))
    print(f"{len(names)} files, {functions} executable functions, {body_lines} body lines as in the source")


if __name__ == "__main__":
    if len(sys.argv) != 3:
        sys.exit(__doc__)
    main(sys.argv[1], sys.argv[2])
