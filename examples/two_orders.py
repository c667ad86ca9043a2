#!/usr/bin/env python3
"""Runs the plan of README.md under two orders of turns and shows that memory, log and report are equal.

two_orders.py [LIBRARY]    LIBRARY is the path of the shared library; without it, libtampermauve.so.2 is looked for
"""
import ctypes
import sys

MEMORY_LENGTH, LOG_LENGTH, REPORT_LENGTH, WORK_LENGTH = 2048, 8256, 20, 32768
OP_PLAN_RECORD, OP_SET, OP_STORE = 0, 16, 18
ENDS = {0: "going", 1: "finished", 2: "stuck"}


def record(worker, op, register=0, number=0):
    return bytes([0x4D, 0x50, worker, op, register]) + number.to_bytes(2, "little")


PLAN = b"".join([
    record(2, OP_PLAN_RECORD),  # two workers
    record(0, OP_SET, 1, 7),    # worker 0: set register 1 to 7
    record(0, OP_STORE, 1, 0),  # worker 0: store register 1 at address 0
    record(1, OP_SET, 1, 9),    # worker 1: set register 1 to 9
    record(1, OP_STORE, 1, 0),  # worker 1: store register 1 at address 0
])
ORDERS = {
    "worker 0 first": bytes([0, 0, 0, 1, 1, 1, 0, 1]),
    "in turn": bytes([1, 0, 1, 0, 1, 0, 1, 0, 1]),
}


def load(path):
    library = ctypes.CDLL(path)
    buffer = [ctypes.c_char_p, ctypes.c_size_t]  # each buffer passes as a pointer and its length
    library.tampermauve_run.argtypes = 6 * buffer
    library.tampermauve_run.restype = ctypes.c_uint32
    return library


def run(library, plan, turns):
    """Memory, log and report of a run from zero memory."""
    memory, log, report, work = (ctypes.create_string_buffer(length)
                                 for length in (MEMORY_LENGTH, LOG_LENGTH, REPORT_LENGTH, WORK_LENGTH))
    arguments = []
    for buffer in (plan, turns, memory, log, report, work):
        arguments += [buffer, len(buffer)]
    answer = library.tampermauve_run(*arguments)
    if answer != 0:
        sys.exit(f"refused {answer % 256} at record {answer // 256}")
    return memory.raw, log.raw, report.raw


def number(data, at):
    return int.from_bytes(data[at:at + 2], "little")


def main():
    library = load(sys.argv[1] if len(sys.argv) > 1 else "libtampermauve.so.2")
    runs = []
    for name, turns in ORDERS.items():
        memory, log, report = run(library, PLAN, turns)
        print(f"{name}: {ENDS[report[0]]}, {number(report, 2)} moving turns, word at 0: {number(memory, 0)}")
        runs.append((memory, log, report))
    if runs[0] != runs[1]:
        sys.exit("memory, log or report differ")
    print("memory, log and report are equal")


if __name__ == "__main__":
    main()
