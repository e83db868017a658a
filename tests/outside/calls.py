"""Watches the calls that a program makes of the system, and makes those fail that a test chooses: the disk is full, a sync fails, a write takes half.

The program is traced as a debugger traces it (`ptrace`), so that it is the very program that is proved, and no tool and no right is needed. Where
a system does not let its programs be traced, `why_not` says so. It is written for Linux on x86-64. The calls of the loader, before the
program begins, are passed over, and so are those of other threads than the first.

    Fails(errno)          the call is not made, and answers the error
    FailsHalfway(errno)   of a read or write the first half is done, and then the error is answered
    Takes(count)          of a read or write no more than so many bytes are done
    Killed(signal)        the program is killed before the call
    LetGo(change)         the test changes the process, which then runs on and is watched no more
"""

import contextlib
import ctypes
import functools
import os
import signal
import struct
import subprocess
import tempfile
import threading
from dataclasses import dataclass, field

TRACE_ME, GET_REGISTERS, SET_REGISTERS, LET_GO, TO_THE_NEXT_CALL, SET_OPTIONS = 0, 12, 13, 17, 24, 0x4200
# A stop at a call is told apart from one at a signal, and the program ends where the tests do.
OPTIONS = 1 | 1 << 20
AT_A_CALL = signal.SIGTRAP | 0x80

REGISTERS = "r15 r14 r13 r12 rbp rbx r11 r10 r9 r8 rax rcx rdx rsi rdi orig_rax rip cs eflags rsp ss fs_base gs_base ds es fs gs".split()
LAYOUT = struct.Struct(f"{len(REGISTERS)}Q")
NO_CALL = (1 << 64) - 1

# The calls that are watched, by their numbers.
NAMES = {
    **{0: "read", 1: "write", 3: "close", 8: "lseek", 16: "ioctl", 17: "pread64", 18: "pwrite64", 32: "dup", 72: "fcntl", 77: "ftruncate"},
    **{2: "openat", 257: "openat", 87: "unlink", 263: "unlink", 5: "fstat", 262: "fstat", 332: "fstat", 4: "stat", 6: "stat"},
    **{86: "link", 265: "link", 82: "rename", 264: "rename", 316: "rename"},
    **{73: "flock", 74: "fsync", 75: "fdatasync", 9: "mmap", 12: "brk", 25: "mremap"},
    **{56: "clone", 435: "clone"},
}
# In which register the path is, for one that is made the new one.
OF_PATHS = {2: "rdi", 4: "rdi", 6: "rdi", 87: "rdi", 257: "rsi", 263: "rsi", 86: "rsi", 265: "r10", 82: "rsi", 264: "r10", 316: "r10"}
# These ask of an open file, or of a path from the folder that the program is in, as all its paths are.
OF_BOTH, FROM_HERE = {262, 332}, -100
OF_MEMORY = {"mmap", "brk", "mremap"}
AT_A_PLACE = {"pread64", "pwrite64"}
DUPLICATES = {0, 1030}
SECONDS = 60

system = ctypes.CDLL(None, use_errno=True)
system.ptrace.restype = ctypes.c_long
system.ptrace.argtypes = [ctypes.c_long, ctypes.c_long, ctypes.c_void_p, ctypes.c_void_p]


def ptrace(request, process, place=0, data=0):
    if system.ptrace(request, process, place, data) == -1:
        raise OSError(ctypes.get_errno(), "ptrace")


@dataclass
class Fails:
    errno: int


@dataclass
class FailsHalfway:
    errno: int


@dataclass
class Takes:
    count: int


@dataclass
class Killed:
    signal: int


@dataclass
class LetGo:
    change: callable


@dataclass
class Call:
    """A call: on which file, by the last part of its path, or `<input>`, `<output>`, `<error>`, `<memory>` or `<thread>`; and what it answered."""

    name: str
    file: str
    place: int = 0
    data: bytes = b""
    count: int = 0
    answer: int = 0


@dataclass
class Ran:
    status: int
    printed: str
    told: str
    calls: list = field(default_factory=list)

    @property
    def answer(self):
        return self.status, self.printed, self.told


class Traced:
    """A program that runs and stops at each of its calls."""

    def __init__(self, process, decide):
        self.process = process
        self.decide = decide
        self.files = {0: "<input>", 1: "<output>", 2: "<error>"}
        self.calls = []
        self.end_of_data = 0
        self.loader = None

    def registers(self):
        held = ctypes.create_string_buffer(LAYOUT.size)
        ptrace(GET_REGISTERS, self.process, 0, ctypes.addressof(held))
        return dict(zip(REGISTERS, LAYOUT.unpack(held.raw)))

    def set_registers(self, registers):
        held = ctypes.create_string_buffer(LAYOUT.pack(*(registers[name] % (1 << 64) for name in REGISTERS)))
        ptrace(SET_REGISTERS, self.process, 0, ctypes.addressof(held))

    def memory(self, place, count):
        with open(f"/proc/{self.process}/mem", "rb", buffering=0) as memory:
            memory.seek(place)
            return memory.read(count)

    def text(self, place):
        """The bytes up to a zero, of which the last part is the name of a file."""
        text = self.memory(place, 4096 - place % 4096)
        if b"\0" not in text:
            text += self.memory(place + len(text), 4096)
        return text.split(b"\0")[0].decode(errors="replace").rsplit("/", 1)[-1]

    def find_loader(self):
        """Where the loader of the program is: its calls are none of the program's."""
        with open(f"/proc/{self.process}/maps") as maps:
            ends = [line.split()[0].split("-") for line in maps if "/ld-" in line or "/ld." in line]
        self.loader = (int(ends[0][0], 16), int(ends[-1][1], 16)) if ends else (0, 0)

    def call_in(self, registers):
        """The call that begins, and nothing for one that is not watched."""
        name = NAMES.get(registers["orig_rax"])
        if name is None or self.loader[0] <= registers["rip"] < self.loader[1]:
            return None
        first, second, third, fourth = (registers[each] for each in ("rdi", "rsi", "rdx", "r10"))
        if registers["orig_rax"] in OF_PATHS:
            return Call(name, self.text(registers[OF_PATHS[registers["orig_rax"]]]))
        if registers["orig_rax"] in OF_BOTH and first % (1 << 32) == FROM_HERE % (1 << 32):
            return Call("stat", self.text(second))
        if name in OF_MEMORY:
            return Call(name, "<memory>", place=first)
        if name == "clone":
            return Call(name, "<thread>")
        call = Call(name, self.files.get(first % (1 << 32), "<none>"), count=third)
        if name in AT_A_PLACE:
            call.place = fourth
        if name in ("write", "pwrite64"):
            call.data = self.memory(second, third)
        return call

    def follow(self, call, registers, answer):
        """Keeps which numbers the open files have, and where the memory ends."""
        call.answer = answer
        if call.name == "brk" and not call.answer < 0:
            self.end_of_data = answer
        if answer < 0:
            return
        if call.name == "openat":
            self.files[answer] = call.file
        elif call.name == "dup" or call.name == "fcntl" and registers["rsi"] in DUPLICATES:
            self.files[answer] = call.file
        elif call.name == "close":
            self.files.pop(registers["rdi"] % (1 << 32), None)

    def step(self, sent=0):
        """Goes on to the next stop, and gives what the system tells of it."""
        # A program that was killed is gone from its stop.
        with contextlib.suppress(ProcessLookupError):
            ptrace(TO_THE_NEXT_CALL, self.process, 0, sent)
        return os.waitpid(self.process, 0)[1]

    def begin_call(self):
        registers = self.registers()
        call = self.call_in(registers)
        if call is None:
            return None, None, registers
        self.calls.append(call)
        action = self.decide(call)
        if isinstance(action, Killed):
            os.kill(self.process, action.signal)
        elif isinstance(action, Fails):
            self.set_registers({**registers, "orig_rax": NO_CALL})
        elif isinstance(action, (FailsHalfway, Takes)):
            most = registers["rdx"] // 2 if isinstance(action, FailsHalfway) else min(action.count, registers["rdx"])
            self.set_registers({**registers, "rdx": most})
        return call, action, registers

    def end_call(self, call, action, begun):
        if call is None:
            return
        registers = self.registers()
        if isinstance(action, (Fails, FailsHalfway)):
            # The call that asks for more memory at the end of the data has no error: it answers where the end still is.
            registers["rax"] = self.end_of_data if call.name == "brk" else -action.errno
        if action is not None:
            self.set_registers({**registers, "rdx": begun["rdx"]})
        answer = registers["rax"] % (1 << 64)
        self.follow(call, begun, answer - (1 << 64) if answer >> 63 else answer)

    def begin(self):
        """Waits until the program is loaded in its place."""
        os.waitpid(self.process, 0)
        ptrace(SET_OPTIONS, self.process, 0, OPTIONS)
        self.find_loader()

    def next_call(self):
        """Runs on to the next call. Of a program that has ended it is the status, below 0 for the signal that ended it."""
        sent = 0
        while True:
            told = self.step(sent)
            if os.WIFEXITED(told) or os.WIFSIGNALED(told):
                return os.waitstatus_to_exitcode(told)
            stopped = os.WSTOPSIG(told)
            if stopped == AT_A_CALL:
                return None
            sent = stopped

    def run(self):
        """Runs the program to its end, and gives its status; nothing where it was let go before."""
        self.begin()
        while (status := self.next_call()) is None:
            call, action, begun = self.begin_call()
            if isinstance(action, LetGo):
                action.change(self.process)
                ptrace(LET_GO, self.process)
                return None
            if (status := self.next_call()) is not None:
                break
            self.end_call(call, action, begun)
        return status


def watched(command, decide=lambda call: None, given=b"", **how):
    """Runs a command; what becomes of each of its calls is decided by the test."""
    with tempfile.TemporaryFile() as input, tempfile.TemporaryFile() as output, tempfile.TemporaryFile() as error:
        input.write(given)
        input.seek(0)
        streams = {"stdin": input, "stdout": output, "stderr": error, **how}
        running = subprocess.Popen([str(word) for word in command], preexec_fn=lambda: ptrace(TRACE_ME, 0), **streams)
        ending = threading.Timer(SECONDS, os.kill, (running.pid, signal.SIGKILL))
        ending.start()
        traced = Traced(running.pid, decide)
        running.returncode = traced.run()
        running.wait()
        ending.cancel()
        printed, told = ((stream.seek(0), stream.read().decode())[1] for stream in (output, error))
    return Ran(running.returncode, printed, told, traced.calls)


@functools.cache
def why_not():
    """Why programs can't be traced here; nothing where they can."""
    if os.uname().machine != "x86_64":
        return "programs are traced on x86-64 alone"
    try:
        ran = watched(["echo", "traced"])
    except (OSError, subprocess.SubprocessError) as error:
        return f"the system lets no program be traced: {error}"
    seen = [call.data for call in ran.calls if call.name == "write"]
    return None if seen == [b"traced\n"] else "the calls of a traced program can't be seen"
