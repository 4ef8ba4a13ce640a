"""Cutting: runs of a command in the machine, stopped at moments or killed, on one flash or over a list."""

import os
import shlex

from . import judge, layout
from .machine import Machine, put_flash

IMAGES_A_RUN = 6  # a run is given up when its stops have found so many different images
STOPS_A_RUN = 200  # or has been stopped so many times
KILL_IMAGES = 3  # the machine is killed when its stops have found one image, or up to so many
STEPS_MANY = 1000  # above it the rest of a command's time does not count
STEP_SLOW = 0.0008  # seconds for a step that is told, when the machine is slow
SLOW_BEFORE = 300  # steps before a chosen one, at which the machine is made slow
WIPES = 4  # bytes that are programmed to 0 before an erase
FIELDS = 64  # bytes of a block, after which most commands leave the rest as it was
ERASE_PAUSES = [0.0000005 * times for times in (1, 2, 4, 8)]  # longest seconds between two stops, for each byte of the erase


def tool_words(program, erase_size, words):
    return shlex.join([program, "-q", "/dev/mtd0"] + layout.setting_words(erase_size) + words)


def device_line(erase_size, words, program="rsu-image"):
    """The tool on the device itself."""
    return tool_words(program, erase_size, words + ["--device"]) + " 2>/tmp/errors"


def plan_line(erase_size, words):
    """The tool writes a plan."""
    return tool_words("rsu-image", erase_size, words + ["--steps", "/tmp/plan"]) + " >/dev/null 2>/tmp/errors"


APPLY_LINE = "apply-steps --progress /tmp/plan /dev/mtd0 2>/tmp/errors"  # carries the plan out and tells each step


def erase_steps(case):
    return [number for number, step in enumerate(case.steps) if step.erases]


def short_windows(case):
    """Where something short begins, and how many steps it has: the last bytes of a block, which are its magic, the first
    steps of the next one, its first fields after the erase, the end."""
    first = [number - WIPES for number in erase_steps(case)]
    return ([(number, WIPES) for number in first] + [(number - WIPES, WIPES) for number in first if number > 0]
            + [(number + WIPES + 1, FIELDS) for number in first] + [(len(case.steps) - WIPES, WIPES)])


class Aim:
    """Learns when the steps of a command begin and end, in the machine's time after the tool has said how many there are."""

    def __init__(self, time):
        self.early, self.late, self.last = 0.0, time, None

    def delay(self, random):
        """A moment between one that was too early and one that was too late."""
        first, last = sorted((self.early, self.late))
        self.last = random.uniform(0.95 * first, 1.05 * last)
        return self.last

    def learn(self, case, image):
        if self.last is not None and image == case.start:
            self.early = self.last
        elif self.last is not None and image == case.end:
            self.late = self.last
        self.last = None


def wait_for_step(machine, number):
    """Waits until the console says that this step comes, the first being 0. Whether it did before the end."""
    return machine.wait_for(rf"(?:^|\n){number + 1}\n|@end (\d+)\n").group(1) is None


def wait_for_start(machine):
    """Waits until the tool says how many steps there are. Whether it did before the end."""
    return machine.wait_for(r"\d steps: |@end (\d+)\n").group(1) is None


class Runs:
    """Cuts on one machine. Every image and its verdict go to the tally."""

    def __init__(self, rig, tally, random, erase_size, cpu):
        self.rig, self.tally, self.random = rig, tally, random
        self.erase_size, self.cpu = erase_size, cpu
        self.flash_path = os.path.join(rig.folder, "flash")
        self.machine = None
        self.step_time = 0.0001  # the machine's time for a step, until it is measured

    def boot(self, image=None):
        if image is not None:
            put_flash(self.flash_path, image)
        self.machine = Machine(self.rig, self.flash_path, layout.length(self.erase_size), self.erase_size, self.cpu)
        self.tally.boots += 1

    def end(self):
        if self.machine is not None:
            self.machine.end()

    def measure(self, case, program="rsu-image"):
        """Runs the command whole, once: it must leave what it should. Keeps the machine's time for it."""
        put_flash(self.flash_path, case.start)
        self.machine.begin(device_line(self.erase_size, case.words, program))
        self.machine.wait_for(r"\d steps: ")
        began = self.machine.used()
        status = self.machine.ended()
        case.aim = Aim(self.machine.used() - began)
        if len(case.steps) > STEPS_MANY:
            self.step_time = case.aim.late / len(case.steps)
        self.tally.note(case, self, [] if status == 0 and self.machine.flash() == case.end else ["not cut"], self.machine.flash())

    def at_random_moment(self, case):
        """The tool on the device, up to a moment among its steps. Returns the longest time to the next stop, in seconds,
        or None if the command ended before."""
        self.machine.begin(device_line(self.erase_size, case.words))
        if not wait_for_start(self.machine):
            return None
        self.machine.let_run(case.aim.delay(self.random))
        return 2 * self.step_time * max(2, len(case.steps) / IMAGES_A_RUN)

    def begin_telling(self, case, fault, pace):
        """A command that tells each step: a plan carried out, or a program with a fault."""
        if fault is None:
            self.machine.begin(plan_line(self.erase_size, case.words))
            self.machine.ended()
        self.machine.pace(pace)
        self.machine.begin(APPLY_LINE if fault is None else device_line(self.erase_size, case.words, fault.program))

    def at_random_step(self, case, fault=None):
        """Up to a random step. Returns as at_random_moment."""
        self.begin_telling(case, fault, "fast")
        if not wait_for_step(self.machine, self.random.randrange(len(case.steps))):
            return None
        return 2 * self.step_time * max(2, len(case.steps) / IMAGES_A_RUN)

    def at_slow_step(self, case, number, fault=None):
        """Up to this step, the machine being slow from some steps before. Whether the command had not ended."""
        self.begin_telling(case, fault, "slow" if number < SLOW_BEFORE else "fast")
        if number >= SLOW_BEFORE:
            if not wait_for_step(self.machine, number - SLOW_BEFORE):
                return False
            self.machine.pace("slow")
        return wait_for_step(self.machine, number)

    def at_erase(self, case, fault=None):
        """Up to an erase, the machine crawling. Returns as at_random_moment."""
        number = self.random.choice(erase_steps(case))
        if not self.at_slow_step(case, number - WIPES, fault):
            return None
        self.machine.pace("crawl")
        return self.erase_size * self.random.choice(ERASE_PAUSES) if wait_for_step(self.machine, number) else None

    def at_one_write(self, case, fault):
        """Up to the write of a whole block, the machine crawling. Returns as at_random_moment."""
        number = self.random.choice([number - WIPES for number in erase_steps(case)[1:]] + [len(case.steps)]) - 1
        self.begin_telling(case, fault, "fast")
        if not wait_for_step(self.machine, number):
            return None
        self.machine.pace("crawl")
        return self.erase_size * self.random.choice(ERASE_PAUSES)

    def at_short_window(self, case, fault=None):
        """Up to something short, the machine being slow. Returns as at_random_moment."""
        if len(case.steps) > STEPS_MANY:
            first, width = self.random.choice(short_windows(case))
            number = first + self.random.randrange(width)
        else:
            number = self.random.randrange(len(case.steps))
        return 2 * STEP_SLOW if self.at_slow_step(case, number, fault) else None

    def begin(self, case, fault=None):
        """Puts the flash as it was before, starts the command one way or another, and waits for a moment."""
        put_flash(self.flash_path, case.start)
        chance = self.random.random()
        if fault is not None and not fault.tells_steps:
            return self.at_one_write(case, fault)
        if chance < 0.2 and fault is None:
            return self.at_random_moment(case)
        if chance < 0.4:
            return self.at_random_step(case, fault)
        if chance < 0.7 and erase_steps(case):
            return self.at_erase(case, fault)
        return self.at_short_window(case, fault)

    def walk(self, case, wanted, pause):
        """Stops the machine again and again: the images. A stop that finds what the stop before it found gives none."""
        taken = []
        for number in range(STOPS_A_RUN):
            if number > 0:
                self.machine.let_run(self.random.random() * pause)
            self.machine.stop()
            image = self.machine.flash()
            if taken[-1:] != [image]:
                taken.append(image)
            self.machine.go_on()
            if len(taken) == wanted or image == case.end:
                break
        return taken

    def images_of_run(self, case, wanted, fault=None):
        """Runs the command once: the images that its stops found."""
        pause = self.begin(case, fault)
        taken = [] if pause is None else self.walk(case, wanted, pause)
        self.machine.pace("fast")
        if pause is not None:
            case.aim.learn(case, taken[0])
            self.machine.drop()
        return taken

    def stopped_cuts(self, case, wanted, fault=None):
        """Stopped cuts of one command until there are enough, each judged. Returns how many were taken."""
        count = tries = 0
        while count < wanted and tries < 4 * wanted:
            tries += 1
            before = None
            for image in self.images_of_run(case, min(IMAGES_A_RUN, wanted - count), fault):
                self.tally.add(case, self, "stopped", judge.judge(case, image, before), image)
                before = image
                count += 1
        return count

    def run_and_kill(self, case):
        """The machine is killed in the middle of the command. Whether it was before the end."""
        pause = self.begin(case)
        if pause is not None and self.walk(case, 1 + self.random.randrange(KILL_IMAGES), pause)[-1] != case.end:
            self.machine.kill()
            return True
        self.machine.pace("fast")
        if pause is not None:
            self.machine.drop()
        return False

    def killed_cut(self, case):
        """The machine is killed in the middle, and booted on the file that was left."""
        while not self.run_and_kill(case):
            pass
        image = self.machine.flash()
        verdict = judge.judge(case, image)
        self.boot()
        violations = [] if self.machine.flash() == image else ["changed by the boot"]
        violations += self.judge_on_device(case, image, verdict)
        self.tally.add(case, self, "killed", verdict._replace(violations=verdict.violations + violations), image)

    def run_whole(self, words):
        self.machine.begin(device_line(self.erase_size, words))
        return self.machine.ended()

    def judge_on_device(self, case, image, verdict):
        """In the new boot: repair, then the command again, on the device."""
        violations = []
        _, repaired = case.result_of_tool(image, ["--repair"])
        _, again = case.result_of_tool(repaired, case.words)
        if self.run_whole(["--repair"]) != 0 or self.machine.flash() != repaired:
            violations.append("repair on the device")
        if self.run_whole(case.words) != (case.again if verdict.is_new else 0) or self.machine.flash() != again:
            violations.append("given again on the device")
        return violations

    def cut_or_finish(self, case):
        """One item of a list: refused, finished or cut; the flash is left as it is then."""
        put_flash(self.flash_path, case.start)
        if case.answer.startswith("refused") or not case.steps or self.random.random() < 0.3:
            status = self.run_whole(case.words)
            return ("finished" if status == 0 else f"refused {status}"), self.machine.flash()
        images = self.images_of_run(case, 1 + self.random.randrange(4))
        if not images or images[-1] == case.end:
            return "finished", self.machine.flash()
        put_flash(self.flash_path, images[-1])
        return "cut", images[-1]

    def one_list(self, length):
        """Commands one after another on one flash, with a book beside it. After a cut a repair comes often."""
        flash = layout.start_image(layout.COMMANDS[0], self.erase_size)
        book = judge.Case(self.rig, ["--repair"], "repair", flash, self.erase_size).old
        how = "nothing yet"
        for number in range(length):
            words, line = self.random.choice(layout.LIST_COMMANDS)
            if how == "cut" and self.random.random() < 0.7:
                words, line = ["--repair"], "repair"
            case = judge.Case(self.rig, judge.named(words, book.table), line, flash, self.erase_size, name="list")
            case.aim = Aim(self.step_time * len(case.steps))
            how, flash = self.cut_or_finish(case)
            book = self.tally.add_item(self, number, case, how, flash, book)
