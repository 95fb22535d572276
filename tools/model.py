#!/usr/bin/env python3
"""A second, simple program beside `heaprun`: it runs a script on a modelled heap, and writes what `heaprun` must write.

usage: tools/model.py [--lines] WORD.. < SCRIPT

The words are those of `heaprun`. What a script means is done on plain Python objects. Of the heap only what decides
where words are found is there: how many words each cell has, which cells its slots refer to, whether it is young, and
where it stands in a page. It is written from docs/ and the definitions of needs and rooms, and reads nothing of the
program, so what it says is a value from outside for rows/.

A cycle of marking is a truth value that lines put: `mark` opens one, and `finish`, `gc` and `census` end it. A `mark`
that opens one promotes all that is young, and `finish` collects the heap fully where one is open. `gen` and `soak` take
their script from tools/generated.

With `--lines` the number of executed lines is told on standard error. The grammar is in model_script.py, cells and heap
are in model_heap.py.
"""
import importlib.machinery
import importlib.util
import os
import sys
from functools import partial
from itertools import islice
from pathlib import Path
from typing import NamedTuple

sys.dont_write_bytecode = True
from model_heap import FIRST_CAPACITY, HEAD_WORDS, UNBOUND, WIDE, WIDTHS  # noqa: E402
from model_heap import Full, Heap, Held, Plain, List, Object, WeakMap, box_need, is_wide, width_of  # noqa: E402
from model_script import CAP_MOST, INTEGER_LEAST, INTEGER_MOST, Reader, Refused, Variable, invocation_of  # noqa: E402

SOURCE_BYTES_MOST = 1_048_576
LINES_MOST = 20_000_000
FIELDS_MOST = 64
PATHS_MOST = 8192
ELEMENTS_MOST = 1000
PROTOTYPES_MOST = 64


def loaded(path):
    """A Python program of this repository as a module. Its name has no ending, so that no `import` finds it."""
    path = Path(__file__).resolve().parent.parent / path
    loader = importlib.machinery.SourceFileLoader(path.name, str(path))
    module = importlib.util.module_from_spec(importlib.util.spec_from_loader(path.name, loader))
    loader.exec_module(module)
    return module


generated = loaded("tools/generated")


class Fault(Exception):
    """A command faults, with this word."""


class Machine:
    """What a script has made: variables, objects, field paths and output. A method `do_..` is a command."""

    def __init__(self, sizes, variables):
        self.heap = Heap(sizes, variables)
        self.bound = self.heap.bound
        self.made = 0
        self.paths = {(cap, ()) for cap in range(CAP_MOST + 1)}
        self.output = []
        # Whether a cycle of marking is open.
        self.in_cycle = False

    def value(self, operand):
        """The value that an operand stands for."""
        if type(operand) is not Variable:
            return operand
        value = self.bound[operand.number]
        if value is UNBOUND:
            raise Fault("unbound")
        return value

    def read(self, kind, *operands):
        """The values of operands, which are read from left to right. The first has to be an object of this kind."""
        values = [self.value(operand) for operand in operands]
        return [found(values[0], kind, kind.fault), *values[1:]]

    def say(self, text):
        """Writes a line."""
        self.output.append(text.encode() + b"\n")

    def bind(self, x, value):
        """Binds a variable."""
        self.bound[x.number] = value

    def bind_new(self, x, one):
        """Binds a variable to a new object."""
        self.heap.make_room(lambda: one.own.words)
        self.heap.place(one.own)
        self.made += 1
        self.bind(x, one)

    def do_new(self, x, cap):
        self.bind_new(x, Plain(self.made, cap))

    def do_list(self, x):
        self.bind_new(x, List(self.made))

    def do_weak(self, x):
        self.bind_new(x, WeakMap(self.made))

    def do_let(self, x, v):
        self.bound[x.number] = self.value(v)

    def do_drop(self, x):
        self.value(x)
        self.bind(x, UNBOUND)

    def do_add(self, x, v):
        first, second = self.value(x), self.value(v)
        if not isinstance(first, int) or not isinstance(second, int):
            raise Fault("notint")
        if not INTEGER_LEAST <= first + second <= INTEGER_MOST:
            raise Fault("overflow")
        self.bind(x, first + second)

    def missing(self, cap, path):
        """This path and its beginnings, as far as they don't stand."""
        paths = [(cap, path[:count]) for count in range(len(path) + 1)]
        missing = [it for it in paths if it not in self.paths]
        if len(self.paths) + len(missing) > PATHS_MOST:
            raise Fault("shapesfull")
        return missing

    def do_set(self, x, name, v):
        plain, value = self.read(Plain, x, v)
        place = plain.place(name)
        is_new = place is None
        if is_new and len(plain.fields) == FIELDS_MOST:
            raise Fault("fieldsfull")
        place = len(plain.fields) if is_new else place
        field = Held(name) if is_new else plain.fields[place]
        width = max(field.width, width_of(value))
        path = plain.path()
        changed = (*path[:place], (name, width), *path[place + 1:])
        missing = self.missing(plain.cap, changed) if changed != path else []
        capacity = plain.room()
        boxed = plain.is_boxed(place, width, value)
        grown = max(FIRST_CAPACITY, 2 * capacity) if is_new and place == plain.cap + capacity else 0
        need = (HEAD_WORDS + grown if grown else 0) + box_need(boxed, field)
        self.heap.make_room(lambda: need)
        if grown:
            self.heap.renew(plain, grown)
        if is_new:
            plain.fields.append(field)
        field.width = width
        self.heap.hold(field, value, boxed)
        self.heap.watch(plain)
        self.paths.update(missing)

    def do_get(self, y, x, name):
        plain, = self.read(Plain, x)
        fields = (it.field(name) for it in islice(plain.chain(), 1 + PROTOTYPES_MOST))
        first = next((it for it in fields if it), None)
        self.bind(y, first.value if first else None)

    def do_del(self, x, name):
        plain, = self.read(Plain, x)
        place, path = plain.place(name), plain.path()
        if place is None:
            return
        self.paths.update(self.missing(plain.cap, path[:place] + path[place + 1:]))
        del plain.fields[place]
        # A wide field that moves from the store into the object stands raw there.
        for field in plain.fields[:plain.cap]:
            field.box = None if field.width == WIDE else field.box
        self.heap.watch(plain)

    def do_proto(self, x, v):
        plain, value = self.read(Plain, x, v)
        proto = None if value is None else found(value, Plain, Plain.fault)
        if proto and plain in proto.chain():
            raise Fault("ring")
        plain.proto = proto
        self.heap.watch(plain)

    def do_push(self, x, v):
        target, value = self.read(List, x, v)
        count, boxed = len(target.elements), is_wide(value)
        if count == ELEMENTS_MOST:
            raise Fault("listfull")
        grown = min(ELEMENTS_MOST, max(FIRST_CAPACITY, 2 * count)) if count == target.room() else 0
        need = (HEAD_WORDS + grown if grown else 0) + box_need(boxed)
        self.heap.make_room(lambda: need)
        if grown:
            self.heap.renew(target, grown)
        target.elements.append(Held())
        self.heap.hold(target.elements[-1], value, boxed)
        self.heap.watch(target)

    def do_put(self, x, i, v):
        target, i, value = self.read(List, x, i, v)
        element, boxed = target.elements[index(i, len(target.elements) - 1)], is_wide(value)
        self.heap.make_room(lambda: box_need(boxed, element))
        self.heap.hold(element, value, boxed)
        self.heap.watch(target)

    def do_at(self, y, x, i):
        target, i = self.read(List, x, i)
        self.bind(y, target.elements[index(i, len(target.elements) - 1)].value)

    def do_shift(self, x, n):
        target, n = self.read(List, x, n)
        gone = index(n, len(target.elements))
        if gone:
            del target.elements[:gone]
            target.store.words -= gone
            target.store.at = None if target.store.at is None else target.store.at + gone

    def do_trunc(self, x, n):
        target, n = self.read(List, x, n)
        kept = index(n, len(target.elements))
        if kept < len(target.elements):
            del target.elements[kept:]
            target.store.words = HEAD_WORDS + kept

    def do_wput(self, m, k, v):
        weak, key, value = self.read(WeakMap, m, k, v)
        key, boxed = found(key, Object, "badkey"), is_wide(value)
        if weak.is_full_for(key):
            self.heap.collect()
        if weak.is_full_for(key):
            raise Fault("weakfull")
        self.heap.make_room(lambda: weak.table_need(key) + box_need(boxed, weak.entries.get(key)))
        if weak.table_need(key):
            self.heap.renew(weak, 2 * weak.grown())
            weak.rehash(weak.grown())
        if key not in weak.entries:
            weak.entries[key] = Held()
            weak.put_pair(key)
        self.heap.hold(weak.entries[key], value, boxed)
        self.heap.watch(weak)

    def do_wget(self, y, m, k):
        weak, key = self.read(WeakMap, m, k)
        entry = weak.entries.get(found(key, Object, "badkey"))
        self.bind(y, entry.value if entry else None)

    def do_wdel(self, m, k):
        weak, key = self.read(WeakMap, m, k)
        if found(key, Object, "badkey") in weak.entries:
            weak.remove(key)
            self.heap.watch(weak)

    def do_print(self, v):
        value = self.value(v)
        self.say(f"{value.word} {value.number}" if isinstance(value, Object) else
                 "undefined" if value is None else str(value))

    def do_same(self, a, b):
        first, second = self.value(a), self.value(b)
        self.say("true" if first == second else "false")

    def do_alike(self, x, y):
        first, second = self.read(Plain, x, y)
        second = found(second, Plain, Plain.fault)
        self.say("true" if (first.cap, first.path()) == (second.cap, second.path()) else "false")

    def do_shape(self, x):
        plain, = self.read(Plain, x)
        self.say(" ".join([f"cap {plain.cap}", *(f"{name.decode()}:{WIDTHS[width]}" for name, width in plain.path())]))

    def do_scavenge(self):
        self.heap.scavenge(False)

    def do_mark(self):
        if not self.in_cycle:
            self.heap.begin_cycle()
        self.in_cycle = True

    def do_finish(self):
        if self.in_cycle:
            self.collect_all()

    def do_gc(self):
        self.collect_all()

    def do_census(self):
        self.say(self.census())

    def collect_all(self):
        """The full collection of a line, which ends a cycle. One that comes between two lines leaves it open."""
        self.in_cycle = False
        return self.heap.collect()

    def census(self):
        """What is left behind a full collection."""
        reached = self.collect_all()
        entries = sum(len(one.entries) for one in reached if isinstance(one, WeakMap))
        return f"objects {len(reached)} entries {entries}"


def found(value, kind, word):
    """The object of a kind that a value is; another one is a fault with this word."""
    if not isinstance(value, kind):
        raise Fault(word)
    return value


def index(value, most):
    """The index or count up to this one that a value is."""
    if not isinstance(value, int):
        raise Fault("notint")
    if not 0 <= value <= most:
        raise Fault("range")
    return value


class Result(NamedTuple):
    """What a run comes to: its status, what it writes, and how many lines it executes."""

    status: int
    output: bytes
    lines: int = 0


def open_block(turns, count, end):
    """A `repeat`: where the run goes on, if not at the next line."""
    if not count:
        return end + 1
    turns.append(count)
    return None


def close_block(turns, repeat):
    """An `end`: where the run goes on, if not at the next line."""
    turns[-1] -= 1
    if turns[-1]:
        return repeat + 1
    turns.pop()
    return None


def steps_of(machine, lines):
    """What each line does: it answers where the run goes on, if not at the next line."""
    turns = []
    blocks = {"repeat": partial(open_block, turns), "end": partial(close_block, turns)}
    return [partial(blocks.get(it.command) or getattr(machine, f"do_{it.command}"), *it.operands) for it in lines]


def run_lines(machine, lines):
    """Executes the lines. It answers the status, the last line, and how many lines were executed."""
    steps, at, executed = steps_of(machine, lines), 0, 0
    try:
        while at < len(steps):
            if executed == LINES_MOST:
                return 8, f"line limit {lines[at].number}\n", executed
            to = steps[at]()
            at = at + 1 if to is None else to
            executed += 1
    except Fault as fault:
        return 1, f"fault {lines[at].number} {fault}\n", executed
    except Full:
        return 3, f"heap full {lines[at].number}\n", executed
    return 0, "", executed


def told_at_end(command, machine, executed):
    """What a run that came to the end of its script writes: what the script told, and its command's last line."""
    told = b"".join(machine.output)
    if command == "check":
        return told + f"checked {machine.census()}\n".encode()
    if command == "soak":
        return f"lines {executed} bytes {len(told)} sum {sum(told) % (1 << 64)} {machine.census()}\n".encode()
    return told


def run(words, source):
    """What the program comes to with these words on this source."""
    asked = invocation_of(words)
    if asked is None:
        return Result(64, b"bad words\n")
    if not asked.reads_source():
        source = generated.script(asked.seed, asked.forms)
    if asked.command == "gen":
        return Result(0, source)
    if len(source) > SOURCE_BYTES_MOST:
        return Result(6, b"source too long\n")
    reader = Reader()
    try:
        lines = source.split(b"\n")
        for number, line in enumerate(lines[:-1] if not lines[-1] else lines, 1):
            reader.read(number, line)
        reader.close()
    except Refused as refused:
        number, reason = refused.args
        return Result(2, f"bad script {number} {reason}\n".encode())
    machine = Machine(asked.sizes, len(reader.variables))
    status, last, executed = run_lines(machine, reader.lines)
    if status == 0:
        return Result(0, told_at_end(asked.command, machine, executed), executed)
    told = b"" if asked.command == "soak" else b"".join(machine.output)
    return Result(status, told + last.encode(), executed)


def main():
    words = [os.fsencode(it) for it in sys.argv[1:]]
    tells_lines = words[:1] == [b"--lines"]
    result = run(words[tells_lines:], sys.stdin.buffer.read())
    sys.stdout.buffer.write(result.output)
    if tells_lines:
        print(f"model: {result.lines} lines", file=sys.stderr)
    return result.status


if __name__ == "__main__":
    sys.exit(main())
