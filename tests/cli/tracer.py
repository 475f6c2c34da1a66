"""Runs one program under ptrace (x86-64 Linux): reports its system calls, kills it before any of them, makes one of them fail, or holds it
before one while something else is done.

Only the process itself is followed, not what it may start. Calls are counted from 0, after exec."""
import collections
import contextlib
import ctypes
import os
import platform
import signal
import sys
import tempfile

TRACEME, POKE_USER, SYSCALL, SET_OPTIONS, SYSCALL_INFO = 0, 6, 24, 0x4200, 0x420E
TRACE_SYS_GOOD, EXIT_KILL = 1, 1 << 20
RAX, RDX, ORIG_RAX = 10 * 8, 12 * 8, 15 * 8
ENTRY, EXIT = 1, 2
AT_MOST = 50_000

# Each system call of the file-system kind by its number: its name, and which of its arguments are paths.
FILE_CALLS = {
    0: ("read", ()), 1: ("write", ()), 2: ("open", (0,)), 3: ("close", ()), 4: ("stat", (0,)), 5: ("fstat", ()), 6: ("lstat", (0,)),
    8: ("lseek", ()), 16: ("ioctl", ()), 17: ("pread64", ()), 18: ("pwrite64", ()), 19: ("readv", ()), 20: ("writev", ()),
    21: ("access", (0,)), 40: ("sendfile", ()), 72: ("fcntl", ()), 73: ("flock", ()), 74: ("fsync", ()), 75: ("fdatasync", ()),
    76: ("truncate", (0,)), 77: ("ftruncate", ()), 78: ("getdents", ()), 79: ("getcwd", ()), 80: ("chdir", (0,)), 82: ("rename", (0, 1)),
    83: ("mkdir", (0,)), 84: ("rmdir", (0,)), 85: ("creat", (0,)), 86: ("link", (0, 1)), 87: ("unlink", (0,)), 88: ("symlink", (0, 1)),
    89: ("readlink", (0,)), 90: ("chmod", (0,)), 91: ("fchmod", ()), 92: ("chown", (0,)), 93: ("fchown", ()), 94: ("lchown", (0,)),
    137: ("statfs", (0,)), 138: ("fstatfs", ()), 162: ("sync", ()), 188: ("setxattr", (0,)), 190: ("fsetxattr", ()), 191: ("getxattr", (0,)),
    193: ("fgetxattr", ()), 194: ("listxattr", (0,)), 196: ("flistxattr", ()), 217: ("getdents64", ()), 257: ("openat", (1,)),
    258: ("mkdirat", (1,)), 260: ("fchownat", (1,)), 262: ("newfstatat", (1,)), 263: ("unlinkat", (1,)), 264: ("renameat", (1, 3)),
    265: ("linkat", (1, 3)), 266: ("symlinkat", (0, 2)), 267: ("readlinkat", (1,)), 268: ("fchmodat", (1,)), 269: ("faccessat", (1,)),
    277: ("sync_file_range", ()), 280: ("utimensat", (1,)), 285: ("fallocate", ()), 306: ("syncfs", ()), 316: ("renameat2", (1, 3)),
    326: ("copy_file_range", ()), 332: ("statx", (1,)), 437: ("openat2", (1,)), 439: ("faccessat2", (1,)), 452: ("fchmodat2", (1,)),
}
RENAMES = ("rename", "renameat", "renameat2")
NAMINGS = RENAMES + ("link", "linkat")
SYNCS = ("fsync", "fdatasync")
WRITES = ("write", "pwrite64", "writev", "ftruncate", "fallocate", "sendfile", "copy_file_range")

# One call: its number, name, six arguments, those that are paths, and what it gave (None where the program was killed before it).
Call = collections.namedtuple("Call", "number name arguments paths result")
# How a run ended: the exit status (a signal's number below 0), both outputs, the calls made, and the one that failed or was held.
Ended = collections.namedtuple("Ended", "status out err calls failed")

libc = ctypes.CDLL(None, use_errno=True)
libc.ptrace.restype = ctypes.c_long
libc.ptrace.argtypes = [ctypes.c_long, ctypes.c_long, ctypes.c_void_p, ctypes.c_void_p]


class Info(ctypes.Structure):
    """struct ptrace_syscall_info; `values` is the number and six arguments at entry, the result and whether it is an error at exit."""
    _fields_ = [("op", ctypes.c_uint8), ("pad", ctypes.c_uint8 * 3), ("arch", ctypes.c_uint32)]
    _fields_ += [("ip", ctypes.c_uint64), ("sp", ctypes.c_uint64), ("values", ctypes.c_uint64 * 8)]


def ptrace(request, pid, address=0, data=0):
    ctypes.set_errno(0)
    answer = libc.ptrace(request, pid, address, data)
    if answer == -1 and ctypes.get_errno():
        raise OSError(ctypes.get_errno(), os.strerror(ctypes.get_errno()))
    return answer


def signed(value):
    return value - (1 << 64) if value >> 63 else value


def text_at(pid, address):
    """The text that the traced program has at an address, up to its zero byte."""
    found = b""
    with open(f"/proc/{pid}/mem", "rb", buffering=0) as memory:
        while b"\0" not in found:
            memory.seek(address + len(found))
            found += memory.read(4096 - (address + len(found)) % 4096)
    return found.split(b"\0")[0]


def call_of(pid, info):
    number, arguments = info.values[0], tuple(info.values[1:7])
    name, places = FILE_CALLS.get(number, (str(number), ()))
    paths = tuple(text_at(pid, arguments[place]) if arguments[place] else b"" for place in places)
    return Call(number, name, arguments, paths, None)


def start(command, out, err, prepare):
    """Starts the program, stopped right after exec."""
    pid = os.fork()
    if pid == 0:
        try:
            nothing = os.open(os.devnull, os.O_RDONLY)
            for place, fd in enumerate((nothing, out.fileno(), err.fileno())):
                os.dup2(fd, place)
            if prepare:
                prepare()
            ptrace(TRACEME, 0)
            os.execv(command[0], command)
        finally:
            os._exit(126)
    _, status = os.waitpid(pid, 0)
    if not os.WIFSTOPPED(status):
        raise OSError("ptrace or exec is not permitted")
    ptrace(SET_OPTIONS, pid, 0, TRACE_SYS_GOOD | EXIT_KILL)
    return pid


class Run:
    """One traced run; `trace` below says what its arguments are."""

    def __init__(self, pid, kill_before, fail, watched, halve, meanwhile):
        self.pid, self.kill_before, self.fail, self.watched, self.halve, self.meanwhile = pid, kill_before, fail, watched, halve, meanwhile
        self.calls, self.failed, self.counted = [], None, 0
        self.killed = self.seen = self.now_failing = False

    def follow(self):
        pass_on = 0
        while True:
            if not self.killed:
                ptrace(SYSCALL, self.pid, 0, pass_on)
            _, status = os.waitpid(self.pid, 0)
            if not os.WIFSTOPPED(status):
                return os.waitstatus_to_exitcode(status)
            pass_on = 0 if os.WSTOPSIG(status) == signal.SIGTRAP | 0x80 else os.WSTOPSIG(status)
            if not pass_on:
                self.stopped()

    def stopped(self):
        info = Info()
        ptrace(SYSCALL_INFO, self.pid, ctypes.sizeof(info), ctypes.addressof(info))
        if info.op == ENTRY:
            self.entry(call_of(self.pid, info))
        elif info.op == EXIT and self.calls:
            self.exit(signed(info.values[0]))

    def entry(self, call):
        if self.kill_before == len(self.calls) or len(self.calls) > AT_MOST:
            self.killed = True
            os.kill(self.pid, signal.SIGKILL)
            return
        self.calls.append(call)
        self.seen = self.seen or any(self.watched in path for path in call.paths)
        if self.seen and call.number in FILE_CALLS:
            self.now_failing = self.fail is not None and self.counted == self.fail[0]
            if self.meanwhile is not None and self.counted == self.meanwhile[0]:
                self.meanwhile[1]()
                self.failed = call
            self.counted += 1
        if self.now_failing:
            self.failed = call
            ptrace(POKE_USER, self.pid, ORIG_RAX, -1)
        elif self.halve and call.name == "write" and call.arguments[0] > 2 and call.arguments[2] > 1:
            ptrace(POKE_USER, self.pid, RDX, call.arguments[2] // 2)

    def exit(self, result):
        if self.now_failing:
            result = -self.fail[1]
            ptrace(POKE_USER, self.pid, RAX, result)
            self.now_failing = False
        self.calls[-1] = self.calls[-1]._replace(result=result)


@contextlib.contextmanager
def one_processor():
    """The tracer and the traced take turns, which is faster on one processor."""
    allowed = os.sched_getaffinity(0)
    os.sched_setaffinity(0, {max(allowed)})
    try:
        yield
    finally:
        os.sched_setaffinity(0, allowed)


def trace(command, kill_before=None, fail=None, watched=b"", halve=False, meanwhile=None, prepare=None):
    """Runs a command (its program by its path). kill_before: killed right before its call of that number. fail=(n, errno): the nth call of
    the file-system kind, from the first that has `watched` in a path, is not made and gives errno. meanwhile=(n, do): do() is called while
    the program is held before that call. halve: every write of more than one byte is made with half of its bytes. prepare: called in the
    new process before exec."""
    with one_processor(), tempfile.TemporaryFile() as out, tempfile.TemporaryFile() as err:
        pid = start([os.fsencode(part) for part in command], out, err, prepare)
        run = Run(pid, kill_before, fail, watched, halve, meanwhile)
        status = run.follow()
        out.seek(0), err.seek(0)
        return Ended(status, out.read(), err.read(), run.calls, run.failed)


def why_not():
    """None where programs can be traced here, otherwise why they cannot."""
    if sys.platform != "linux" or platform.machine() != "x86_64":
        return "the tracer is for Linux on x86-64"
    try:
        ended = trace(["/bin/true"])
    except OSError as error:
        return f"ptrace is not permitted here: {error}"
    return None if ended.status == 0 and ended.calls else "ptrace does not report system calls here"


def opened(calls):
    """The path of each open file at each call: yields (call, path of its first argument as a file, or None)."""
    paths = {}
    for call in calls:
        yield call, paths.get(call.arguments[0])
        if call.name in ("open", "creat", "openat", "openat2") and call.result is not None and call.result >= 0:
            paths[call.result] = call.paths[0]
        elif call.name == "close":
            paths.pop(call.arguments[0], None)
