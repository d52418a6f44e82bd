# What `count`, `time` and `segments` share: the toolchain's compiler and C library, how a program is run, how its instructions are counted and
# how long it takes. A time is of a program for the machine itself: where that is no x86-64, `native` makes it.
import os
import platform
import shutil
import subprocess
import sys

HERE = os.path.dirname(os.path.abspath(__file__))
ROOT = os.path.dirname(HERE)


def toolchain_home():
    guide = subprocess.run(["rt", "doc"], stdout=subprocess.PIPE, check=True, text=True).stdout.strip()
    return os.path.dirname(guide)


HOME, MACHINE = toolchain_home(), platform.machine()
TOOLS = os.path.join(HOME, "toolchain")
CLANG = os.path.join(TOOLS, "bin", "clang")
LIBRARY = os.path.join(TOOLS, "lib")
EMULATOR = os.path.join(TOOLS, "bin", "qemu-x86_64")
EMULATED = os.access(EMULATOR, os.X_OK)  # where the machine is no x86-64

TAKE = os.path.join(ROOT, "crates", "take", "out", "take")
NATIVE_TAKE = os.path.join(HERE, "out", "take") if EMULATED else TAKE


def measured(program, word=1):
    """The program to measure: the one that is named by the script's word of that number, or the one given."""
    program = sys.argv[word] if len(sys.argv) > word else program
    if not os.path.isfile(program):
        raise SystemExit(f"no program {program}: `./run take < /dev/null` builds take, and `speed/native` one for a machine that is no x86-64")
    return program


PLAIN, FLAGS = os.path.join(HERE, "plain.c"), ["-O3", "-ffp-contract=off", "-Wall", "-Wextra"]


def compile_plain(folder):
    """plain.c for x86-64 at -O3, as programs in Rattle are compiled."""
    program = os.path.join(folder, "plain")
    lib = lambda name: os.path.join(LIBRARY, name)
    subprocess.run(
        [
            CLANG, "--target=x86_64-linux-gnu", *FLAGS, "-nostdlib", "-nostartfiles", "-pie", "--ld-path=" + os.path.join(TOOLS, "bin", "ld.lld"),
            "-o", program, PLAIN, lib("Scrt1.o"), lib("crti.o"), lib("libc.so.6"), lib("crtn.o")
        ],
        check=True)
    return program


def compile_native_plain(folder):
    """plain.c for the machine itself, by the same compiler."""
    if not EMULATED:
        return compile_plain(folder)
    program = os.path.join(folder, "native-plain")
    subprocess.run([CLANG, *FLAGS, "-c", "-o", program + ".o", PLAIN], check=True)
    link_native(program, program + ".o")
    return program


def link_native(program, *files):
    """With the machine's own linker and C library."""
    subprocess.run(["cc", "-O2", "-o", program, *files], check=True)


def loaded(program, *words):
    """The command that runs a program for x86-64 with the toolchain's C library."""
    return [os.path.join(LIBRARY, "ld-linux-x86-64.so.2"), "--library-path", LIBRARY, program, *words]


# ---- times, of programs for the machine itself

RUNS = 9


def seconds(words, path):
    """What one run takes of the processor, its system calls too."""
    opened = [(os.POSIX_SPAWN_OPEN, 0, path, os.O_RDONLY, 0), (os.POSIX_SPAWN_OPEN, 1, os.devnull, os.O_WRONLY, 0)]
    child = os.posix_spawn(words[0], words, os.environ, file_actions=opened)
    _, status, used = os.wait4(child, 0)
    if status != 0:
        raise SystemExit(f"{' '.join(words)} ended with status {status}")
    return used.ru_utime + used.ru_stime


def least(programs, path, piece, samples):
    """The least time of each program, in nanoseconds for a sample; the programs take turns."""
    commands = [[p, str(piece)] if EMULATED else loaded(p, str(piece)) for p in programs]
    runs = [[seconds(words, path) for words in commands] for _ in range(RUNS)]
    return [min(times) / samples * 1e9 for times in zip(*runs)]


# ---- counting. Each takes a command, its input and its output, and hands back how many instructions it took, those of the loader too.

def by_emulator(command, taken, given):
    """The emulator writes a line for each instruction, into a pipe that is counted and kept nowhere."""
    trace = given.name + ".trace"
    os.mkfifo(trace)
    lines = subprocess.Popen(["grep", "-c", "^Trace", trace], stdout=subprocess.PIPE, text=True)
    subprocess.run([EMULATOR, "-one-insn-per-tb", "-d", "nochain,exec", "-D", trace, *command], stdin=taken, stdout=given)
    os.remove(trace)
    return int(lines.communicate()[0])


def by_perf(command, taken, given):
    """The processor's own counter, for what runs outside the kernel."""
    said = subprocess.run(["perf", "stat", "-x,", "-e", "instructions:u", *command], stdin=taken, stdout=given, stderr=subprocess.PIPE, text=True)
    return int(next(line for line in said.stderr.splitlines() if "instructions" in line).split(",")[0])


def by_valgrind(command, taken, given):
    words = ["valgrind", "--tool=callgrind", "--callgrind-out-file=/dev/null", *command]
    said = subprocess.run(words, stdin=taken, stdout=given, stderr=subprocess.PIPE, text=True)
    return int(said.stderr.split("Collected :")[1].split()[0])


def counters_readable():
    if not shutil.which("perf"):
        return False
    said = subprocess.run(["perf", "stat", "-x,", "-e", "instructions:u", "true"], stderr=subprocess.PIPE, text=True).stderr
    return any(line[:1].isdigit() for line in said.splitlines())


def counter():
    """The name of a way to count that works here, and the way."""
    if EMULATED:
        return "the toolchain's emulator", by_emulator
    if counters_readable():
        return "perf", by_perf
    if shutil.which("valgrind"):
        return "valgrind", by_valgrind
    raise SystemExit("no way to count instructions here: neither the toolchain's emulator, nor a counter that perf can read, nor valgrind")


def counted(count, folder, program, data, piece):
    """The instructions of a program that is given these bytes, and its outputs."""
    with open(os.path.join(folder, "in"), "wb") as file:
        file.write(data)
    with open(os.path.join(folder, "in"), "rb") as taken, open(os.path.join(folder, "out"), "w+b") as given:
        instructions = count(loaded(program, str(piece)), taken, given)
        given.seek(0)
        return instructions, given.read()
