"""What the tests read of a crate's sources: the functions of a .rt file with their clauses, and what a word there stands for.

A function may have several clauses of a kind, each with a name; its contract is all of them. In a clause `result` is the
answer, x.now what is behind a &, x.old and x.new what is behind a &mut before and after the call.

A function that answers a Result says in its clause what C is told: `(told f result)` is the code, as `(f result)` is of an
enum whose `ghost number` is f, and where C has a word that is written, the clause is of any word x, `(x : ℕ) → ..`, which holds `(kept g result x)` then. Of an answer that is a struct
the first field that a clause names is the code, and the others are words. Such a clause is read in C's words: `result`, x.old
and x.new.
"""

import re

COMMENT = re.compile(r"//[^\n]*|/\*.*?\*/", re.DOTALL)
FUNCTION = re.compile(r'^( *)(pub(?:\([^)]*\))? )?((?:const |unsafe |extern "C" )*)fn (\w+)', re.MULTILINE)
IMPL = re.compile(r"^( *)impl\b[^{\n]*?(\w+)(?:<[^{\n]*>)? \{", re.MULTILINE)
CLAUSE = re.compile(r"\s*\b(requires|ensures)\s*\*?\s*(\w*)\s*\{")
USE = re.compile(r"^ *(?:pub )?(?:ghost )?use ([^\s{;]+)\.\{([^}]*)\}", re.MULTILINE)
BRACKETS = {"(": ")", "[": "]", "{": "}", "<": ">"}


def closing(text, start):
    """Where the bracket that opens at start closes."""
    opened, closed, depth = text[start], BRACKETS[text[start]], 0
    for at in range(start, len(text)):
        depth += (text[at] == opened) - (text[at] == closed and text[at - 1 : at + 1] not in ("->", "=>"))
        if depth == 0:
            return at
    raise ValueError(f"a bracket is never closed: {text[start : start + 60]}")


def pieces(text):
    """What stands between commas outside of brackets."""
    found, depth = [""], 0
    for letter in text:
        depth += (letter in "([{<") - (letter in ")]}>")
        if letter == "," and depth == 0:
            found.append("")
        else:
            found[-1] += letter
    return [piece.strip() for piece in found if piece.strip()]


ANY_WORD = re.compile(r"^\((\w+(?: \w+)*) : ℕ\) → ")


def as_told(clause, numbers):
    """A clause in C's words, and the words that it is of; `numbers` are the functions that number an enum."""
    binder = ANY_WORD.match(clause)
    words = binder[1].split() if binder else []
    clause = clause[binder.end() :] if binder else clause
    for word in words:
        clause = re.sub(rf"(?<![\w.'-]){word}(?![\w.'-])", f"{word}.old", clause)
    fields = list(dict.fromkeys(re.findall(r"(?<![\w.'-])result\.(\w+)", clause)))
    for field in fields:
        clause = re.sub(rf"(?<![\w.'-])result\.{field}(?![\w'-])", "result" if field == fields[0] else f"{field}.new", clause)
    words += fields[1:]
    for number in numbers:
        clause = clause.replace(f"({number} result)", "result")
    while (told := re.search(r"\((told|kept) ", clause)) is not None:
        end = closing(clause, told.start())
        last = clause[told.start() + 1 : end].split()[-1]
        clause = clause[: told.start()] + (last if told[1] == "told" else last.replace(".old", ".new")) + clause[end + 1 :]
    return clause, words


def variants(text):
    """The variants of the enums of a .rt file, each with its number, or none, by the name Type::Variant."""
    text = COMMENT.sub("", text)
    found = {}
    for match in re.finditer(r"^(?:pub )?enum (\w+)[^{\n]*\{", text, re.MULTILINE):
        for piece in pieces(text[match.end() : closing(text, match.end() - 1)]):
            name, number = re.fullmatch(r"(\w+).*?(?:= (-?\d+))?", piece, re.DOTALL).groups()
            found[f"{match[1]}::{name}"] = int(number) if number else None
    return found


class Function:
    """A function of a .rt file; `owner` is the type of the impl that it stands in, or empty."""

    def __init__(self, text, match, owner, numbers):
        self.numbers = numbers
        indent, public, _, self.name = match.groups()
        self.owner, self.public = owner, (public or "").strip() == "pub"
        self.line = text.count("\n", 0, match.start()) + 1
        at = match.end()
        if text[at] == "<":
            at = closing(text, at) + 1
        end = closing(text, at)
        named = [re.sub(r"^(&?(?:mut )?)self$", r"self: \1Self", piece).removeprefix("mut ") for piece in pieces(text[at + 1 : end])]
        self.parameters = [tuple(part.strip() for part in piece.split(":", 1)) for piece in named]
        first = re.compile(r"\b(?:requires|ensures)\b|[{;]").search(text, end).start()
        self.result = text[end + 1 : first].partition("where")[0].strip().removeprefix("->").strip() or None
        self.clauses, at = [], first
        while clause := CLAUSE.match(text, at):
            at = closing(text, clause.end() - 1) + 1
            self.clauses.append((*clause.groups(), " ".join(text[clause.end() : at - 1].split())))
        at += len(text[at:]) - len(text[at:].lstrip())
        if text[at] == ";":
            self.body = None
        elif text[at] != "{":
            raise ValueError(f"line {self.line}: no body after the clauses of {self.name}")
        else:
            end = text.find(f"\n{indent}}}", at) if text[at : at + 2] == "{\n" else closing(text, at)
            self.body = text[at + 1 : end].strip()

    @property
    def full_name(self):
        return f"{self.owner}::{self.name}" if self.owner else self.name

    def said(self, kind):
        """Its clauses of a kind, `requires` or `ensures`."""
        return [as_told(text, self.numbers)[0] for what, _, text in self.clauses if what == kind]

    @property
    def words(self):
        """The words of C that its clauses are of."""
        return list(dict.fromkeys(word for _, _, text in self.clauses for word in as_told(text, self.numbers)[1]))


def functions(text):
    """The functions of a .rt file, in their order."""
    text = COMMENT.sub(lambda comment: re.sub(r"[^\n]", " ", comment[0]), text)
    blocks, numbers = [], re.findall(r"ghost number = \{ (\w+) \}", text)
    for block in IMPL.finditer(text):
        end = text.find(f"\n{block[1]}}}", block.end())
        blocks.append((block.start(), end if end >= 0 else len(text), block[2]))
    for match in FUNCTION.finditer(text):
        inside = [owner for start, end, owner in blocks if start < match.start() < end]
        yield Function(text, match, inside[-1] if inside else "", numbers)


def brought(text):
    """What a file of either kind brings in: each word there, with the path of its module and its name in it."""
    found = {}
    for path, group in USE.findall(text):
        for item in group.split(","):
            name, _, word = item.strip().partition(" as ")
            if name:
                found[word.strip() or name.strip()] = path, name.strip()
    return found
