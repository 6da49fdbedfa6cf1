"""Runs a program and looks at its calls of the system, one by one, as a debugger does (ptrace, on x86-64 Linux)."""

import ctypes
import os
import signal
import tempfile

LIBC = ctypes.CDLL(None, use_errno=True)
TRACEME, PEEKUSER, POKEUSER, SYSCALL, SETOPTIONS = 0, 3, 6, 24, 0x4200
STOPS_OF_CALLS = 1
NUMBER_OF_THE_CALL = 15 * 8
ANSWER_OF_THE_CALL = 10 * 8

# The calls that touch the disk: those that are looked at.
CALLS = {2: "open", 18: "pwrite64", 73: "flock", 74: "fsync", 75: "fdatasync", 77: "ftruncate", 257: "openat", 17: "pread64"}

LIBC.ptrace.restype = ctypes.c_long
LIBC.ptrace.argtypes = [ctypes.c_long, ctypes.c_long, ctypes.c_void_p, ctypes.c_void_p]


def ptrace(request, process, data=0, address=0):
    ctypes.set_errno(0)
    answer = LIBC.ptrace(request, process, address, data)
    if answer == -1 and ctypes.get_errno() != 0:
        raise OSError(ctypes.get_errno(), "ptrace")
    return answer


def run(program, folder, text, stop_at=None, answers=None):
    """Runs the program in the folder over the text, up to its stop before or behind a call on the disk: an even number stops
    it before the call, and an odd one behind it. Without a number it runs to its end. A call that `answers` names answers that
    number in place of its own. Gives the calls, what it wrote on standard output, and on standard error."""
    reading, input_end = os.pipe()
    output_end, writing = os.pipe()
    said = tempfile.TemporaryFile()
    process = os.fork()
    if process == 0:
        os.chdir(folder)
        os.dup2(reading, 0)
        os.dup2(writing, 1)
        os.dup2(said.fileno(), 2)
        for number in (reading, input_end, output_end, writing):
            os.close(number)
        LIBC.ptrace(TRACEME, 0, 0, 0)
        os.kill(os.getpid(), signal.SIGSTOP)
        os.execv(program[0], program)
    os.close(reading)
    os.close(writing)
    os.write(input_end, text)
    os.close(input_end)
    os.waitpid(process, 0)
    ptrace(SETOPTIONS, process, STOPS_OF_CALLS)
    calls, inside, moment = [], False, 0
    is_started = False
    while True:
        ptrace(SYSCALL, process)
        _, status = os.waitpid(process, 0)
        if os.WIFEXITED(status) or os.WIFSIGNALED(status):
            break
        if os.WSTOPSIG(status) != signal.SIGTRAP | 0x80:
            is_started = is_started or os.WSTOPSIG(status) == signal.SIGTRAP
            continue
        number = ptrace(PEEKUSER, process, 0, NUMBER_OF_THE_CALL)
        inside = not inside
        if not is_started or number not in CALLS:
            continue
        if inside:
            calls.append(CALLS[number])
        elif answers and CALLS[number] in answers:
            ptrace(POKEUSER, process, answers[CALLS[number]], ANSWER_OF_THE_CALL)
        if moment == stop_at:
            os.kill(process, signal.SIGKILL)
            os.waitpid(process, 0)
            break
        moment += 1
    wrote = b""
    while True:
        piece = os.read(output_end, 65536)
        if not piece:
            break
        wrote += piece
    os.close(output_end)
    said.seek(0)
    return calls, wrote, said.read().decode()
