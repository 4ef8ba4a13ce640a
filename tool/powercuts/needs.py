"""What the test needs of the machine: Debian's programs, a kernel and two of its modules, and what is built here."""

import collections
import copy
import glob
import lzma
import os
import shutil
import struct
import subprocess
import sys

from . import layout

# the program that must be there, and the package that has it
PROGRAMS = {
    "qemu-system-x86_64": "qemu-system-x86",
    "busybox": "busybox-static",
    "cpio": "cpio",
    "gcc": "gcc",
    "cargo": "cargo",
    "dpkg-deb": "dpkg",
    "apt-get": "apt",
}
MODULES = ("mtd", "phram")
# how it is named in planted-fault.c, what it does, a command that it changes, whether it tells each step
Fault = collections.namedtuple("Fault", "name words command tells_steps program")
FAULTS = [
    Fault(name, words, command, tells_steps, "rsu-image-" + name)
    for name, words, command, tells_steps in (
        ("magic-first", "the magic written first", "enable, block full", True),
        ("cpb0-first", "CPB0 before CPB1", "enable", True),
        ("top-byte-first", "a pointer's top byte first", "enable", True),
        ("one-write", "the whole block in one write", "rename", False),
    )
]


def fail(text):
    sys.exit("power-cuts: " + text)


def require_packages():
    missing = sorted({package for program, package in PROGRAMS.items() if shutil.which(program) is None})
    if missing:
        fail(f"missing: {' '.join(missing)}. As root:  apt-get update && apt-get install --no-install-recommends {' '.join(missing)}")


def call(words, **options):
    done = subprocess.run(words, stdout=subprocess.PIPE, stderr=subprocess.STDOUT, check=False, **options)
    if done.returncode != 0:
        fail(f"{' '.join(words)} failed:\n{done.stdout.decode('latin-1')[-2000:]}")
    return done.stdout.decode("latin-1")


def kernel_package():
    """The versioned package that Debian's linux-image-amd64 asks for."""
    for line in call(["apt-cache", "depends", "linux-image-amd64"]).splitlines():
        words = line.split()
        if words[:1] == ["Depends:"] and words[1].startswith("linux-image-"):
            return words[1]
    return fail("apt knows no linux-image-amd64: run apt-get update as root")


def unpacked_kernel(folder):
    """Downloads and unpacks the kernel's package, once. Nothing is installed."""
    root = os.path.join(folder, "kernel")
    if not glob.glob(os.path.join(root, "boot", "vmlinuz-*")):
        os.makedirs(root, exist_ok=True)
        call(["apt-get", "download", kernel_package()], cwd=folder)
        call(["dpkg-deb", "-x", glob.glob(os.path.join(folder, "linux-image-*.deb"))[0], root])
    return root


def payload(compressed_kernel):
    """The compressed ELF file inside a bzImage, by the fields of its header."""
    setup_sectors = compressed_kernel[0x1F1] or 4
    offset, length = struct.unpack_from("<II", compressed_kernel, 0x248)
    first = (setup_sectors + 1) * 512 + offset
    return compressed_kernel[first : first + length]


def make_vmlinux(kernel, path):
    """The emulated machine would take long to decompress the kernel itself."""
    with open(glob.glob(os.path.join(kernel, "boot", "vmlinuz-*"))[0], "rb") as file:
        packed = payload(file.read())
    if not packed.startswith(b"\xfd7zXZ"):
        fail("this kernel is not compressed with xz")
    with open(path, "wb") as file:
        file.write(lzma.LZMADecompressor().decompress(packed))


def module_bytes(kernel, name):
    paths = glob.glob(os.path.join(kernel, "**", name + ".ko*"), recursive=True)
    if not paths:
        fail(f"the kernel's package has no module {name}")
    with open(paths[0], "rb") as file:
        data = file.read()
    return lzma.decompress(data) if paths[0].endswith(".xz") else data


def is_made(path, *made_of):
    """Whether a file is there and nothing that it is made of is newer."""
    return os.path.exists(path) and all(os.path.getmtime(part) <= os.path.getmtime(path) for part in made_of)


def tool_sources():
    tool = os.path.join(layout.ROOT, "tool")
    return sorted(glob.glob(os.path.join(tool, "src", "*.[ch]"))) + [os.path.join(tool, "apply-steps.c"), os.path.join(tool, "apply-steps.h")]


def library():
    path = os.path.join(layout.ROOT, "target", "staticlib", "liblinked.a")
    if not os.path.exists(path):
        fail("target/staticlib/liblinked.a is not there: run link/library")
    return path


def build_tools(folder):
    """rsu-image and apply-steps, static, from the sources that people get."""
    out = os.path.join(folder, "tool")
    if not is_made(os.path.join(out, "rsu-image"), library(), *tool_sources()):
        call(["sh", os.path.join(layout.ROOT, "tool", "build"), os.path.dirname(library())],
             env={**os.environ, "OUT": out, "CFLAGS": "-O2 -static"})
    return out


def compile_words(folder):
    tool = os.path.join(layout.ROOT, "tool")
    includes = ["-I" + path for path in (os.path.join(layout.ROOT, "link", "c"), tool, os.path.join(folder, "tool"))]
    return ["gcc", "-std=c11", "-Wall", "-Wextra", "-Werror", "-O2", "-static", "-DRSU_IMAGE"] + includes


def build_objects(folder):
    """rsu-image's parts, for a fault to be linked between them."""
    out = os.path.join(folder, "objects")
    os.makedirs(out, exist_ok=True)
    sources = [path for path in tool_sources() if path.endswith(".c")]
    objects = [os.path.join(out, os.path.basename(path)[:-2] + ".o") for path in sources]
    if not all(is_made(path, *tool_sources()) for path in objects):
        call(compile_words(folder) + ["-c"] + sources, cwd=out)
    return objects


def build_fault(folder, fault, objects):
    """rsu-image with one fault planted between it and apply_steps. It is made here and nowhere else."""
    program = os.path.join(folder, "tool", fault.program)
    source = os.path.join(layout.ROOT, "tool", "powercuts", "planted-fault.c")
    if not is_made(program, source, library(), *objects):
        call(compile_words(folder) + ["-DFAULT_" + fault.name.upper().replace("-", "_"), "-Wl,--wrap=apply_steps", "-o", program, source]
             + objects + [library()])
    return program


def build_replay(folder):
    """The independent implementation's replay."""
    out = os.path.join(folder, "compare")
    call(["cargo", "build", "--quiet", "--offline", "--release", "--bin", "replay"], cwd=os.path.join(layout.ROOT, "compare"),
         env={**os.environ, "CARGO_TARGET_DIR": out})
    return os.path.join(out, "release", "replay")


def put_file(folder, name, data, mode=0o644):
    with open(os.path.join(folder, name), "wb") as file:
        file.write(data)
    os.chmod(os.path.join(folder, name), mode)


def make_initrd(kernel, programs, path):
    """A root folder in memory: busybox, the modules, the programs, and init."""
    root = path + ".root"
    shutil.rmtree(root, ignore_errors=True)
    for name in ("bin", "dev", "proc", "tmp"):
        os.makedirs(os.path.join(root, name))
    for program in [shutil.which("busybox")] + programs:
        shutil.copy(program, os.path.join(root, "bin"))
    for name in MODULES:
        put_file(root, name + ".ko", module_bytes(kernel, name))
    shutil.copy(os.path.join(layout.ROOT, "tool", "powercuts", "init"), os.path.join(root, "init"))
    os.chmod(os.path.join(root, "init"), 0o755)
    names = "\n".join(os.path.relpath(os.path.join(at, name), root) for at, folders, files in os.walk(root) for name in folders + files)
    with open(path, "wb") as file:
        subprocess.run(["cpio", "-o", "-H", "newc", "--quiet"], input=names.encode(), stdout=file, cwd=root, check=True)


class Rig:
    """All that was made, and where."""

    def __init__(self, folder):
        require_packages()
        folder = os.path.abspath(folder)
        os.makedirs(folder, exist_ok=True)
        self.folder = folder
        kernel = unpacked_kernel(folder)
        self.vmlinux = os.path.join(folder, "vmlinux")
        if not os.path.exists(self.vmlinux):
            make_vmlinux(kernel, self.vmlinux)
        self.kernel_version = os.path.basename(glob.glob(os.path.join(kernel, "boot", "vmlinuz-*"))[0])[len("vmlinuz-") :]
        tools = build_tools(folder)
        self.rsu_image = os.path.join(tools, "rsu-image")
        objects = build_objects(folder)
        programs = [self.rsu_image, os.path.join(tools, "apply-steps")] + [build_fault(folder, fault, objects) for fault in FAULTS]
        self.replay = build_replay(folder)
        self.initrd = os.path.join(folder, "initrd")
        make_initrd(kernel, programs, self.initrd)

    def part(self, name):
        """The same, with a folder of its own for flash and images."""
        part = copy.copy(self)
        part.folder = os.path.join(self.folder, name)
        os.makedirs(part.folder, exist_ok=True)
        return part
