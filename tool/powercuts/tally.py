"""What was counted, and how it is printed."""

import collections
import hashlib
import os

from . import judge, layout

KINDS = ("old", "torn copy 1", "between the copies", "torn copy 0", "new")


class Tally:
    """Cuts by command, way and kind; violations with the image that has them."""

    def __init__(self, folder, keep=True):
        self.folder, self.keep = folder, keep
        self.kinds = collections.Counter()
        self.steps = collections.defaultdict(set)
        self.counts = {}
        self.where = collections.Counter()
        self.ways = collections.Counter()
        self.insides = collections.Counter()  # cuts inside an erase, by command and by erase size and CPU model
        self.kills = collections.Counter()
        self.boots = self.lists = 0
        self.images = set()
        self.items = collections.Counter()
        self.choices = collections.Counter()
        self.violations = []
        self.silences = []  # machines that did not say what they should: the part is not whole

    def join(self, other):
        """Adds what was counted elsewhere."""
        for mine, more in ((self.kinds, other.kinds), (self.where, other.where), (self.ways, other.ways), (self.items, other.items),
                           (self.choices, other.choices), (self.insides, other.insides), (self.kills, other.kills)):
            mine.update(more)
        for key, steps in other.steps.items():
            self.steps[key] |= steps
        self.counts.update(other.counts)
        self.images |= other.images
        self.boots += other.boots
        self.lists += other.lists
        self.violations += other.violations
        self.silences += other.silences

    def cuts(self):
        return sum(self.ways.values())

    def add(self, case, runs, way, verdict, image):
        self.ways[way] += 1
        self.where[(runs.erase_size, runs.cpu)] += 1
        self.kinds[(case.name, verdict.kind)] += 1
        self.kills[case.name] += way == "killed"
        self.counts[case.name] = len(case.steps)
        self.images.add((case.name, runs.erase_size, hashlib.sha256(image).digest()))
        if verdict.state is not None:
            self.steps[(case.name, verdict.kind)].add(verdict.state.lowest)
            if verdict.state.inside is not None:
                self.insides.update([case.name, (runs.erase_size, runs.cpu)])
        self.note(case, runs, verdict.violations, image)

    def note(self, case, runs, violations, image):
        for violation in violations:
            self.violations.append((violation, case.name, runs.erase_size, runs.cpu, self.cuts()))
        if violations and self.keep:
            with open(os.path.join(self.folder, f"violation-{len(self.violations)}.img"), "wb") as file:
                file.write(image)

    def add_item(self, runs, number, case, how, flash, book):
        """Judges the flash after an item of a list by the book; returns the book after it."""
        self.lists += number == 0
        self.items[how] += 1
        answers = judge.Answers(runs.rig, judge.image_lines(flash, case) + judge.read_lines(case)
                                + judge.image_lines(flash, case) + ["repair"])
        reading, _ = answers.take_reading()
        violations = [] if case.old == book else ["the book"]
        if how == "finished":
            book = case.new
            violations += [] if answers.take() == "job 0" else ["pairs differ after a finished item"]
        elif how == "cut":
            self.choices["the change" if reading == case.new != case.old else "none" if case.new != case.old else "no difference"] += 1
            book = case.new if reading == case.new else book
        elif case.answer != how:
            violations.append("answer " + how)
        if reading != book:
            violations.append("the book")
        if judge.changed_outside(case, flash):
            violations.append("changed outside")
        self.note(case, runs, violations, flash)
        return book

    # ---- Printing

    def kind_rows(self):
        titles = ("Steps", *KINDS, "inside an erase", "killed")
        rows = ["| Command | " + " | ".join(titles) + " |", "| --- |" + " ---: |" * len(titles)]
        for command in layout.COMMANDS:
            if command.name not in self.counts:
                continue
            cells = [self.kind_cell(command.name, kind) for kind in KINDS]
            cells += [str(self.insides[command.name]), str(self.kills[command.name])]
            rows.append(f"| {command.name} | {self.counts[command.name]:,} | " + " | ".join(cells) + " |")
        return rows

    def kind_cell(self, name, kind):
        """How many cuts, and at which steps."""
        count, steps = self.kinds[(name, kind)], self.steps[(name, kind)]
        if count == 0:
            return "0"
        if not steps:
            return f"{count}"
        return f"{count} (at {min(steps):,})" if len(steps) == 1 else f"{count} ({len(steps)} steps, {min(steps):,} to {max(steps):,})"

    def where_rows(self):
        cpus = sorted({cpu for _, cpu in self.where})
        rows = ["| Erase size | " + " | ".join(cpus) + " |", "| ---: |" + " ---: |" * len(cpus)]
        for erase_size in sorted({size for size, _ in self.where}):
            cells = [f"{self.where[(erase_size, cpu)]} ({self.insides[(erase_size, cpu)]})" for cpu in cpus]
            rows.append(f"| {erase_size:,} | " + " | ".join(cells) + " |")
        return rows

    def report(self):
        lines = [f"stopped cuts: {self.ways['stopped']:,}; kills with a boot: {self.ways['killed']}; boots: {self.boots}; "
                 f"different images: {len(self.images):,}; "
                 f"inside an erase: {sum(self.insides[command.name] for command in layout.COMMANDS)}; violations: {len(self.violations)}", ""]
        lines += self.kind_rows() + [""] + self.where_rows()
        if self.lists:
            items = ", ".join(f"{how} {count}" for how, count in sorted(self.items.items()))
            choices = ", ".join(f"{what} {count}" for what, count in sorted(self.choices.items()))
            lines += ["", f"lists: {self.lists}; items: {items}; the book's choices for the cut ones: {choices}"]
        lines += [f"violation: {row}" for row in self.violations[:20]]
        return "\n".join(lines + [f"not whole: {row}" for row in self.silences])
