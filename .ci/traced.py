"""A process whose calls of the system this one sees (Linux on x86-64)."""
import ctypes
import os
import signal

TRACE_ME, NEXT_CALL, GET_REGISTERS, SET_REGISTERS, SET_OPTIONS = 0, 24, 12, 13, 0x4200
OF_CALLS, OF_THREADS, AT_EXEC, ENDS_WITH_US = 1, 8, 0x10, 0x100000
CALL_STOP = signal.SIGTRAP | 0x80
EXEC_STOP = signal.SIGTRAP | 4 << 8
LIBC = ctypes.CDLL(None, use_errno=True)
LIBC.ptrace.argtypes = ctypes.c_long, ctypes.c_long, ctypes.c_void_p, ctypes.c_void_p
LIBC.ptrace.restype = ctypes.c_long
# the order in which the kernel tells the registers of x86-64
NAMES = "r15 r14 r13 r12 rbp rbx r11 r10 r9 r8 rax rcx rdx rsi rdi call rip cs eflags rsp ss fs_base gs_base ds es fs gs"


class Registers(ctypes.Structure):
    _fields_ = [(name, ctypes.c_ulonglong) for name in NAMES.split()]


def trace(request, process, data=None):
    """One request; the answer is 0 where it is granted."""
    return LIBC.ptrace(request, process, None, data)


def start(words, options):
    """The process of the program, stopped before its first call; or None."""
    process = os.fork()
    if process == 0:
        if trace(TRACE_ME, 0) != 0:
            os._exit(99)
        os.kill(os.getpid(), signal.SIGSTOP)
        os.execv(words[0], words)
    _, status = os.waitpid(process, 0)
    if not os.WIFSTOPPED(status) or trace(SET_OPTIONS, process, OF_CALLS | AT_EXEC | ENDS_WITH_US | options) != 0:
        return None
    return process
