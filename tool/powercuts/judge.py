"""What a cut left, judged: by the independent implementation (compare/), by the bytes, and by the tool given it again."""

import collections
import os
import re
import struct
import subprocess

from . import layout

ALL_STEPS = 4294967295
NO_SLOT = 4294967295
PIECE = 4096
NO_STATE = "bytes of no state"

Reading = collections.namedtuple("Reading", "order table")
Step = collections.namedtuple("Step", "erases address byte")
# done: how many steps fit the bytes, lowest and highest; inside: the erase that was cut, or None
State = collections.namedtuple("State", "lowest highest inside")
Verdict = collections.namedtuple("Verdict", "state kind is_new violations")


# ---- Names of slots


def slot_names(table):
    """The names of a table's slots, by slot number."""
    rows = (struct.unpack_from("<16sQII", table, 32 + 32 * row) for row in range(struct.unpack_from("<I", table, 8)[0]))
    names = [(name.split(b"\0")[0].decode("latin-1"), flags) for name, _, _, flags in rows]
    return [name for name, flags in names if flags & 3 == 0 and name not in layout.SYSTEM]


def numbered(line, table):
    """A command's line with the numbers that the named slots have in this table."""
    names = slot_names(table)
    return re.sub(r"\{(.*?)\}", lambda found: str(names.index(found[1]) if found[1] in names else NO_SLOT), line)


def named(words, table):
    """A command's words with the names that the numbered slots have in this table."""
    names = dict(enumerate(slot_names(table)))
    return [re.sub(r"\{(\d+)\}", lambda found: names.get(int(found[1]), "nobody"), word) for word in words]


# ---- The independent implementation


def image_lines(image, case):
    """The lines of a script that make an image."""
    lines = [f"image {len(image)} 255"]
    for at in range(0, len(image), PIECE):
        piece = image[at : at + PIECE]
        if piece != b"\xff" * len(piece):
            lines.append(f"put {at} {piece.hex()}")
    spt0, spt1 = case.blocks[:2]
    return lines + [f"box {case.erase_size} {spt0} {spt1}"]


def peek_lines(case):
    return [f"peek {start} {case.erase_size}" for start in case.blocks]


def read_lines(case):
    """The order, and the flash repaired: then both copies of the table are the one that is read."""
    return ["order", "repair", f"run {ALL_STEPS}"] + peek_lines(case)


def given_lines(case, image, reading):
    """The command run to its end, and the reading then. Nothing may follow: after a refusal `run` ends the script."""
    line = numbered(case.line, reading.table)
    return image_lines(image, case) + [line, f"run {ALL_STEPS}"] + peek_lines(case) + read_lines(case)


def state_lines(case, state):
    """So many steps of the command, done by the independent implementation."""
    done = 0 if state is None else state.lowest
    return image_lines(case.start, case) + [numbered(case.line, case.old.table), f"run {done}"] + peek_lines(case)


class Answers:
    """What a script printed, taken line by line."""

    def __init__(self, rig, lines):
        done = subprocess.run([rig.replay], input="\n".join(lines).encode() + b"\n", stdout=subprocess.PIPE, check=True)
        self.lines = done.stdout.decode().splitlines()

    def take(self):
        return self.lines.pop(0) if self.lines else "nothing"

    def take_bytes(self):
        words = self.take().split()
        return bytes.fromhex(words[1]) if words[:1] == ["bytes"] and len(words) == 2 else b""

    def take_granules(self):
        return [self.take_bytes() for _ in layout.BLOCKS]

    def take_reading(self):
        """The answers to read_lines: the reading, and the granules after the repair."""
        order, _, _ = self.take(), self.take(), self.take()
        granules = self.take_granules()
        return Reading(order, granules[0][:PIECE]), granules

    def take_given(self, case, image, reading):
        """The answers to given_lines: what the command answered, the flash after it, its reading."""
        answer = self.take()
        if not answer.startswith("job"):
            return answer, image, reading
        self.take()
        image = case.with_granules(image, self.take_granules())
        return answer, image, self.take_reading()[0]


# ---- A case: one command on one flash


class Case:
    """The command, its flash before and after, its steps, and the two readings."""

    def __init__(self, rig, words, line, start, erase_size, again=0, name=""):
        self.rig, self.name, self.words, self.line, self.again = rig, name, words, line, again
        self.start, self.erase_size = start, erase_size
        self.aim = None  # when to cut it, once it is measured
        self.judged = {}  # image to what was found: many cuts leave the same bytes
        self.blocks = layout.block_starts(erase_size)
        self.steps = self.plan_steps()
        self.old, _ = Answers(rig, image_lines(start, self) + read_lines(self)).take_reading()
        self.answer, self.end, self.new = Answers(rig, given_lines(self, start, self.old)).take_given(self, start, self.old)

    def with_granules(self, image, granules):
        image = bytearray(image)
        for start, granule in zip(self.blocks, granules):
            image[start : start + len(granule)] = granule
        return bytes(image)

    def granules(self, image):
        return [image[start : start + self.erase_size] for start in self.blocks]

    def path(self, name):
        return os.path.join(self.rig.folder, name)

    def run_tool(self, image, words, *output):
        """rsu-image on a file here: its exit status."""
        with open(self.path("image"), "wb") as file:
            file.write(image)
        words = [self.rig.rsu_image, "-q", self.path("image")] + layout.setting_words(self.erase_size) + words + list(output)
        return subprocess.run(words, stdout=subprocess.DEVNULL, stderr=subprocess.DEVNULL, check=False).returncode

    def result_of_tool(self, image, words):
        """rsu-image on a file here: its exit status and the flash after."""
        if os.path.exists(self.path("result")):
            os.unlink(self.path("result"))
        status = self.run_tool(image, words, "-o", self.path("result"))
        if status != 0:
            return status, image
        with open(self.path("result"), "rb") as file:
            return status, file.read()

    def plan_steps(self):
        """The steps as the tool lists them; the independent implementation confirms the state that is found by them."""
        if self.run_tool(self.start, self.words, "--steps", self.path("plan")) != 0:
            return []
        with open(self.path("plan"), encoding="ascii") as file:
            lines = [line.split() for line in file]
        return [Step(words[0] == "erase", int(words[1], 16), int(words[2], 16) if words[0] == "program" else None)
                for words in lines if words[0] in ("erase", "program")]


# ---- The bytes


def differences(one, other):
    """Where two images differ. Pieces that are equal are passed over."""
    for at in range(0, len(one), PIECE):
        if one[at : at + PIECE] != other[at : at + PIECE]:
            yield from (place for place in range(at, min(at + PIECE, len(one))) if one[place] != other[place])


def find_state(case, image):
    """How many steps were done, by the bytes: the difference from the image is followed step by step."""
    model = bytearray(case.start)
    wrong = sum(1 for _ in differences(model, image))
    lowest = highest = inside = None
    for number, step in enumerate(case.steps + [None]):
        if wrong == 0:
            lowest, highest = number if lowest is None else lowest, number
        if step is None:
            break
        if step.erases:
            if inside is None and is_inside_erase(case, model, image, step):
                inside = number
            model[step.address : step.address + case.erase_size] = b"\xff" * case.erase_size
            wrong = sum(1 for _ in differences(model, image))
        else:
            old = model[step.address]
            new = old & step.byte
            wrong += (new != image[step.address]) - (old != image[step.address])
            model[step.address] = new
    if lowest is not None:
        return State(lowest, highest, None)
    return State(inside, inside, inside) if inside is not None else None


def is_inside_erase(case, before, image, step):
    """An erase that was cut: the granule's lowest bytes are 0xFF and the rest is old, as this driver erases."""
    places = list(differences(before, image))
    if not places or places[0] < step.address or places[-1] >= step.address + case.erase_size:
        return False
    wiped = image[step.address : places[-1] + 1]
    return wiped == b"\xff" * len(wiped)


def kind_of(case, image):
    """What is left: old, new, or which copy is torn."""
    if image == case.end and image != case.start:
        return "new"
    if image == case.start:
        return "old"
    parts = list(zip(layout.BLOCKS, case.granules(case.start), case.granules(image), case.granules(case.end)))
    torn = [name for name, old, now, new in parts if now not in (old, new)]
    if torn:
        return "torn copy " + torn[0][-1]
    return "between the copies"


def changed_outside(case, image):
    """Whether a byte outside the four granules differs from the start."""
    return case.with_granules(case.start, case.granules(image)) != image


def risen_without_erase(case, before, state_before, after, state):
    """Whether a bit went from 0 to 1 between two images of one run, and no erase of its granule lies between them."""
    for start, old, new in zip(case.blocks, case.granules(before), case.granules(after)):
        if old == new or int.from_bytes(new, "little") & ~int.from_bytes(old, "little") == 0:
            continue
        erases = [number for number, step in enumerate(case.steps) if step.erases and step.address == start]
        if not any(state_before.lowest <= number and (number < state.highest or number == state.inside) for number in erases):
            return True
    return False


# ---- The verdict


def judge(case, image, before=None):
    """All that is asked of a flash that a cut left. `before` is an earlier image of the same run."""
    verdict = judge_alone(case, image)
    before = case.start if before is None else before
    state_before = judge_alone(case, before).state
    if verdict.state is None or state_before is None or not risen_without_erase(case, before, state_before, image, verdict.state):
        return verdict
    return verdict._replace(violations=verdict.violations + ["bit risen"])


def judge_alone(case, image):
    if image not in case.judged:
        state = find_state(case, image)
        is_new, violations = judge_reading(case, image, state)
        violations += ["changed outside"] if changed_outside(case, image) else []
        case.judged[image] = Verdict(state, kind_of(case, image), is_new, violations)
    return case.judged[image]


def judge_reading(case, image, state):
    """The state, the reading, the repair, the command given again: by the independent implementation and by the tool."""
    answers = Answers(case.rig, state_lines(case, state) + image_lines(image, case) + read_lines(case) + ["repair"])
    violations = [] if is_confirmed(case, answers, image, state) else [NO_STATE]
    reading, granules = answers.take_reading()
    if reading not in (case.old, case.new):
        violations.append("reading neither old nor new")
    is_new = reading == case.new != case.old
    repaired = case.with_granules(image, granules)
    if case.result_of_tool(image, ["--repair"]) != (0, repaired) or answers.take() != "job 0":
        violations.append("repair")
    return is_new, violations + judge_again(case, repaired, reading, is_new)


def is_confirmed(case, answers, image, state):
    """The independent implementation's steps leave these bytes; inside an erase, but for the granule under it."""
    answers.take(), answers.take()
    granules = answers.take_granules()
    if state is None:
        return False
    skipped = None if state.inside is None else case.steps[state.inside].address
    return all(start == skipped or now == should for start, now, should in zip(case.blocks, case.granules(image), granules))


def judge_again(case, repaired, reading, is_new):
    """The command given once more on the repaired flash: it finishes, or is answered as where it took effect."""
    answers = Answers(case.rig, given_lines(case, repaired, reading))
    answer, again, reading = answers.take_given(case, repaired, reading)
    expected = case.again if is_new else 0
    is_answered = answer.startswith("job") if expected == 0 else answer == f"refused {expected}"
    is_done = case.result_of_tool(repaired, case.words) == (expected, again) and reading == case.new
    return [] if is_answered and is_done else ["given again"]
