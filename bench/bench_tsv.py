# Reads target/bench.tsv, and the counts of other processors, for bench/table and bench/picture.
#
# SPDX-License-Identifier: Apache-2.0
import os

FROM = "target/bench.tsv"
BESIDE = "target/bench"  # counts.TARGET and about.TARGET, by bench/count
PROCESSORS = {"x86-64": "x86-64", "aarch64": "AArch64", "cortex-m4": "Cortex-M4"}


def is_c(form, bare):
    return form.startswith("c-") and ("-bare/" in form) == bare


def lines(name):
    with open(name) as f:
        for line in f:
            yield line.rstrip("\n").split("\t")


class Ratio:
    """With the lowest and the highest of the parts of the run."""

    def __init__(self, whole, low, high):
        self.whole, self.low, self.high = float(whole), float(low), float(high)

    def __str__(self):
        return "%.2f (%.2f–%.2f)" % (self.whole, self.low, self.high)

    def verdict(self, aim):
        """met: the upper end is at most the aim; missed: the lower end is above it; open: the aim is between them."""
        if round(self.high, 2) <= aim:
            return "met"
        return "missed" if round(self.low, 2) > aim else "open"


class Instructions:
    """Of ours, and the fewest in C with the same refusals; the form that has them."""

    def __init__(self, by_form):
        self.ours = by_form["wq"]
        self.form = min((f for f in by_form if is_c(f, False)), key=by_form.get)
        self.fewest = by_form[self.form]
        self.ratio = self.ours / self.fewest

    def __str__(self):
        return "%.2f" % self.ratio

    def verdict(self, aim):
        return "met" if round(self.ratio, 2) <= aim else "missed"


class Row:
    def __init__(self, fields):
        self.operation, self.number, self.kind, self.form, ns, steady, count = fields[:7]
        self.case = (self.operation, self.number, self.kind)
        self.ns = float(ns)
        self.steady = steady == "yes"
        self.instructions = float(count) if count else None
        self.of = {}  # c, bare, rust
        for i, name in enumerate(("c", "bare", "rust")):
            three = fields[7 + 3 * i : 10 + 3 * i]
            if three[0]:
                self.of[name] = Ratio(*three)


class Bench:
    def __init__(self, name=FROM):
        self.about = {}
        self.cases = []
        self.rows = {}  # case, form
        for fields in lines(name):
            if fields[0].startswith("# "):
                self.about[fields[0][2:]] = fields[1]
            elif fields[0] != "operation":
                row = Row(fields)
                if row.case not in self.cases:
                    self.cases.append(row.case)
                self.rows[row.case, row.form] = row
        self.forms = list(dict.fromkeys(form for _, form in self.rows))
        self.counts = self.all_counts()
        self.processors = [p for p in PROCESSORS if p in self.counts]  # that were measured

    # Processor: case: form: instructions. Of this machine those in the table; of others what bench/count wrote.
    def all_counts(self):
        found = {}
        own = self.about["machine"].replace("_", "-")
        for row in self.rows.values():
            if row.instructions is not None:
                found.setdefault(own, {}).setdefault(row.case, {})[row.form] = row.instructions
        for processor in PROCESSORS:
            name = os.path.join(BESIDE, "counts." + processor)
            if processor not in found and os.path.exists(name):
                for operation, number, kind, form, count in lines(name):
                    found.setdefault(processor, {}).setdefault((operation, number, kind), {})[form] = float(count)
        return found

    # What bench/count says of a processor that is not this machine.
    def about_processor(self, processor):
        name = os.path.join(BESIDE, "about." + processor)
        own = processor == self.about["machine"].replace("_", "-")
        return {} if own or not os.path.exists(name) else dict(lines(name))

    def row(self, case, form):
        return self.rows.get((case, form))

    def of_case(self, case):
        return [self.rows[case, f] for f in self.forms if (case, f) in self.rows]

    def fastest_c(self, case, bare):
        return min((r for r in self.of_case(case) if is_c(r.form, bare)), key=lambda r: r.ns, default=None)

    def instructions(self, case, processor):
        by_form = self.counts[processor].get(case, {})
        return Instructions(by_form) if "wq" in by_form and any(is_c(f, False) for f in by_form) else None
