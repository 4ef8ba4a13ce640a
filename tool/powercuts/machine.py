"""An emulated machine whose flash is a file here. It can be stopped like a clock, and killed like a machine."""

import json
import os
import re
import signal
import socket
import subprocess
import threading
import time

FLASH_AT = 0x100000000
FILE_LENGTH = 16 << 20
PATIENCE = 600  # seconds: the computer may be busy
PAUSE_MIN, PAUSE_MAX = 0.00002, 0.001  # seconds between two looks at the machine's time
TICK = 0.005  # seconds: the machine's time is not told more finely than this
LONGEST_SAID = 64  # no pattern that is waited for is longer
# What QEMU is told. Slow: it translates one instruction at a time, and is some thirty times slower. Crawl: it also
# writes down all registers before each instruction, to nowhere.
PACES = {
    "fast": ("log none", "singlestep off"),
    "slow": ("log none", "singlestep on"),
    "crawl": ("log exec,cpu,nochain", "singlestep on"),
}


class Silence(Exception):
    """The machine did not say what it should."""


def put_flash(path, image):
    """Makes the file that is the flash, or changes its bytes under a running machine."""
    file = os.open(path, os.O_RDWR | os.O_CREAT, 0o644)
    os.ftruncate(file, FILE_LENGTH)
    os.pwrite(file, image, 0)
    os.close(file)


class Machine:
    """One boot."""

    def __init__(self, rig, flash_path, length, erase_size, cpu):
        self.flash_path, self.length = flash_path, length
        self.text, self.changed, self.is_over = "", threading.Condition(), False
        kernel_words = "console=ttyS0 quiet panic=-1 no_timer_check lpj=4000000 mitigations=off"
        kernel_words += f" flash_at={FLASH_AT:#x} flash_length={length} flash_erase={erase_size}"
        self.monitor, its_end = socket.socketpair()
        self.process = subprocess.Popen(
            ["qemu-system-x86_64", "-accel", "tcg", "-cpu", cpu, "-m", "256M,slots=1,maxmem=1G", "-machine", "pc,nvdimm=on",
             "-object", f"memory-backend-file,id=f,share=on,size={FILE_LENGTH},mem-path={flash_path}",
             "-device", f"nvdimm,memdev=f,addr={FLASH_AT:#x}", "-kernel", rig.vmlinux, "-initrd", rig.initrd,
             "-append", kernel_words, "-display", "none", "-nodefaults", "-serial", "stdio", "-no-reboot",
             "-D", "/dev/null", "-chardev", f"socket,id=monitor,fd={its_end.fileno()}", "-mon", "chardev=monitor,mode=control"],
            stdin=subprocess.PIPE, stdout=subprocess.PIPE, stderr=subprocess.STDOUT, pass_fds=[its_end.fileno()])
        its_end.close()
        self.orders = self.monitor.makefile("rw")
        threading.Thread(target=self._listen, daemon=True).start()
        try:
            self.orders.readline()
            self.order(("qmp_capabilities", {}))
            self.wait_for("@ready")
        except BaseException:
            self.end()
            raise

    def _listen(self):
        """Reads the console all the time: a full pipe would stop the machine."""
        while True:
            data = os.read(self.process.stdout.fileno(), 65536)
            with self.changed:
                self.text += data.decode("latin-1")
                self.is_over = not data
                self.changed.notify_all()
            if not data:
                return

    def wait_for(self, pattern):
        """Waits until the console has said this; returns the match, and forgets what was said up to it."""
        deadline, searched = time.monotonic() + PATIENCE, 0
        with self.changed:
            while True:
                found = re.compile(pattern).search(self.text, searched)
                if found is not None:
                    self.text = self.text[found.end() :]
                    return found
                left = deadline - time.monotonic()
                if self.is_over or left <= 0:
                    raise Silence(f"no {pattern!r} on the console, which said: {self.text[-500:]!r}")
                searched = max(0, len(self.text) - LONGEST_SAID)
                self.changed.wait(left)

    def send(self, line):
        self.process.stdin.write(line.encode() + b"\n")
        self.process.stdin.flush()

    def begin(self, line):
        """Starts a line of shell in the background. Its end is told as `@end STATUS`."""
        with self.changed:
            self.text = ""
        self.send("{ " + line + '; echo "@end $?"; } &')

    def ended(self):
        """Waits for the end of what was begun: its exit status."""
        return int(self.wait_for(r"@end (\d+)\n").group(1))

    def drop(self):
        """Kills the program that was begun, in the machine."""
        self.send("killall -9 rsu-image apply-steps $(cd /bin; echo rsu-image-*) 2>/dev/null")
        return self.ended()

    def order(self, *orders):
        """Gives QEMU itself some orders, while it is stopped so that they are the next thing it does: the answers."""
        self.stop()
        for name, arguments in orders:
            self.orders.write(json.dumps({"execute": name, "arguments": arguments}) + "\n")
        self.orders.flush()
        self.go_on()
        answers = [answer for answer in (json.loads(self.orders.readline() or "{}") for _ in orders) if "return" in answer]
        if len(answers) < len(orders):
            raise Silence("QEMU takes no orders")

    def pace(self, name):
        """Has QEMU go on as fast as it can, or slowly. The machine does the same instructions in the same order."""
        self.order(*[("human-monitor-command", {"command-line": line}) for line in PACES[name]])

    def flash(self):
        with open(self.flash_path, "rb") as file:
            return file.read(self.length)

    def stop(self):
        """Stops every thread of the machine, and returns when they have stopped."""
        os.kill(self.process.pid, signal.SIGSTOP)
        _, status = os.waitpid(self.process.pid, os.WUNTRACED)
        if not os.WIFSTOPPED(status):
            raise Silence("the machine has ended")

    def go_on(self):
        os.kill(self.process.pid, signal.SIGCONT)

    def used(self):
        """The processor time that the machine has had, in seconds: its own clock, however busy the computer is."""
        return time.clock_gettime(~self.process.pid << 3 | 2)

    def let_run(self, seconds):
        """Waits until the machine has had so much more processor time, or what was begun has ended."""
        if seconds < TICK:
            time.sleep(seconds)
            return
        until, deadline, pause, before = self.used() + seconds, time.monotonic() + PATIENCE, PAUSE_MIN, None
        while (now := self.used()) < until and "@end" not in self.text and time.monotonic() < deadline:
            pause = min(2 * pause, PAUSE_MAX) if now == before else PAUSE_MIN
            before = now
            time.sleep(pause)

    def kill(self):
        """The power goes away."""
        os.kill(self.process.pid, signal.SIGKILL)
        self.process.wait()

    def end(self):
        """Ends the machine, if it has not ended."""
        if self.process.poll() is None:
            self.kill()
        self.process.stdin.close()
        self.orders.close()
        self.monitor.close()
