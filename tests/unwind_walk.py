"""Steps through calls of the library, by gdb, and walks from each instruction to the caller: tests/unwind.py runs it.

In each function that a step reaches, main has to be found by the tables of unwinding, with its stack pointer and the
registers that a call keeps as they were when main called. What isn't of the program, as the C library, is left at once.
It ends at the first stop that is wrong. The last line says how many stops there were, and how many were wrong.
"""
import gdb

KEPT = ("rbx", "rbp", "r12", "r13", "r14", "r15")


def registers(frame: gdb.Frame, stack: int) -> list:
    return [int(frame.read_register("rsp")) + stack, *(int(frame.read_register(name)) for name in KEPT)]


def main_behind(frame: gdb.Frame) -> gdb.Frame | None:
    while frame is not None and frame.name() != "main":
        frame = frame.older()
    return frame


gdb.execute("set pagination off")
gdb.execute("set confirm off")
gdb.execute("break main")
gdb.execute("run", to_string=True)
program = gdb.selected_inferior().progspace.filename
due, stops, wrong = None, 0, 0
while not wrong:
    gdb.execute("stepi", to_string=True)
    frame = gdb.newest_frame()
    if not gdb.selected_inferior().threads():
        break
    name = frame.name() or ""
    if name == "main":
        due = None
    elif due is None and not name.startswith("vahepito_"):
        break  # main has returned
    elif name.endswith("@plt") or gdb.solib_name(frame.pc()):
        gdb.execute("finish", to_string=True)
    else:
        due = due or registers(frame, 8)  # the call's first instruction: the return address is above
        found = main_behind(frame)
        stops += 1
        wrong += found is None or registers(found, 0) != due
gdb.execute("kill")
print(f"{stops} stops, {wrong} wrong")
