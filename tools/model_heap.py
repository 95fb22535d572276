"""Cells, the objects that they belong to, and the heap that has room for them, for tools/model.py.

A cell is told by its words, by where it stands in a page, and by the cells that its slots refer to: docs/CELLS.md. How
young cells are copied is told by docs/SCAVENGING.md.
"""
from functools import partial

PAGE_WORDS = 2048
ENTRIES_MOST = 256
PAIRS_MOST = 2 * ENTRIES_MOST
FIRST_CAPACITY = 4
HEAD_WORDS = 2
PLAIN_HEAD = 3
COUNTED_WORDS = 3
BOX_WORDS = 2
SMALL_LEAST, SMALL_MOST = -(1 << 30), (1 << 30) - 1


def no_slots():
    """The slots of a cell that has none."""
    return ()


class Cell:
    """A row of words: an object's own cell, its store or table, or a box."""

    __slots__ = ("words", "slots", "at", "has_survived", "scavenge")

    def __init__(self, words, slots):
        self.words = words
        # Gives the cells that its slots refer to, in the order of the slots.
        self.slots = slots
        # Its address, where it stands in a page; nothing where it is young.
        self.at = None
        # Whether it has survived a scavenge, and the number of the last one that copied it.
        self.has_survived, self.scavenge = False, 0

    def freeze(self):
        """Keeps the slots as they are: nothing names the cell any more."""
        self.slots = partial(list, list(self.slots()))


class Held:
    """A value in a field, an element or an entry, with its box where it stands in one."""

    __slots__ = ("value", "box", "name", "width")

    def __init__(self, name=None, width=0):
        self.value = self.box = None
        self.name, self.width = name, width

    def target(self):
        """The cells that its slot refers to: one at most."""
        if self.box:
            return [self.box]
        return [self.value.own] if isinstance(self.value, Object) else []


def is_wide(value):
    """Whether a value is an integer that is not small."""
    return isinstance(value, int) and not SMALL_LEAST <= value <= SMALL_MOST


WIDTHS = ("small", "wide", "tagged")
WIDE, TAGGED = 1, 2


def width_of(value):
    """The representation of a value, by its place in their order."""
    return int(is_wide(value)) if isinstance(value, int) else TAGGED


class Object:
    """An object of the script, with its cells: its own, and its store or table where there is one."""

    # What `print` calls it, and the fault where something else is found in its place.
    word, fault = "object", "notobject"

    def __init__(self, number, words):
        self.number = number
        self.own = Cell(words, self.own_slots)
        self.store = None

    def own_slots(self):
        """What the slots of its own cell refer to."""
        return [self.store] if self.store else []

    def held(self):
        """Its fields, elements or entries."""
        raise NotImplementedError

    def cells(self):
        """Its cells, boxes too."""
        return [cell for cell in (self.own, self.store) if cell] + [it.box for it in self.held() if it.box]

    def room(self):
        """How many slots its store has."""
        return self.store.words - HEAD_WORDS if self.store else 0


class Plain(Object):
    """An object with fields."""

    def __init__(self, number, cap):
        super().__init__(number, PLAIN_HEAD + cap)
        self.cap, self.fields = cap, []
        # The plain object that is its prototype, if it has one.
        self.proto = None

    def held(self):
        return self.fields

    def own_slots(self):
        inside = [it for it in self.fields[:self.cap] if it.width != WIDE]
        proto = [self.proto.own] if self.proto else []
        return super().own_slots() + proto + [cell for it in inside for cell in it.target()]

    def store_slots(self):
        """What the slots of its store refer to."""
        return [cell for it in self.fields[self.cap:] for cell in it.target()]

    def place(self, name):
        """Which of its fields has the name."""
        return next((place for place, it in enumerate(self.fields) if it.name == name), None)

    def field(self, name):
        """Its field of the name, if it has one."""
        return next((it for it in self.fields if it.name == name), None)

    def chain(self):
        """The object itself, and those that follow it by prototypes."""
        one = self
        while one:
            yield one
            one = one.proto

    def path(self):
        """The names and representations of its fields."""
        return tuple((it.name, it.width) for it in self.fields)

    def is_boxed(self, place, width, value):
        """Whether a field at this place stands in a box with this representation and value."""
        return place >= self.cap if width == WIDE else width == TAGGED and is_wide(value)


class List(Object):
    """A list."""

    word, fault = "list", "notlist"

    def __init__(self, number):
        super().__init__(number, COUNTED_WORDS)
        self.elements = []

    def held(self):
        return self.elements

    def store_slots(self):
        """What the slots of its store refer to."""
        return [cell for it in self.elements for cell in it.target()]


class WeakMap(Object):
    """A weak map. `pairs` has the key of each pair of its table, or nothing."""

    word, fault = "weak", "notweak"

    def __init__(self, number):
        super().__init__(number, COUNTED_WORDS)
        self.entries, self.pairs = {}, []

    def held(self):
        return self.entries.values()

    def store_slots(self):
        """What the slots of its table refer to."""
        return [cell for key in self.pairs if key for cell in (key.own, *self.entries[key].target())]

    def wants_table(self):
        """Whether with one entry more over half of its pairs would be filled."""
        return 2 * (len(self.entries) + 1) > len(self.pairs)

    def grown(self):
        """How many pairs a new table has."""
        return min(PAIRS_MOST, max(FIRST_CAPACITY, 2 * len(self.pairs)))

    def put_pair(self, key):
        """Gives a key the first free pair from its home on."""
        place = key.number % len(self.pairs)
        while self.pairs[place]:
            place = (place + 1) % len(self.pairs)
        self.pairs[place] = key

    def rehash(self, count):
        """Makes so many pairs, with the keys of the old ones in their order."""
        keys = [key for key in self.pairs if key]
        self.pairs = [None] * count
        for key in keys:
            self.put_pair(key)

    def remove(self, key):
        """Takes an entry out. A pair behind it moves back where probing would no longer find it."""
        del self.entries[key]
        count, hole = len(self.pairs), self.pairs.index(key)
        place = (hole + 1) % count
        while self.pairs[place]:
            other = self.pairs[place]
            if (place - other.number) % count >= (place - hole) % count:
                self.pairs[hole], hole = other, place
            place = (place + 1) % count
        self.pairs[hole] = None

    def is_full_for(self, key):
        """Whether it has as many entries as it may have, and none of this key."""
        return len(self.entries) == ENTRIES_MOST and key not in self.entries

    def table_need(self, key):
        """The words of a new table, where the entry of this key wants one."""
        return HEAD_WORDS + 2 * self.grown() if key not in self.entries and self.wants_table() else 0


class Full(Exception):
    """The heap has not the words that a command needs."""


# What a variable is bound to before the first command that binds it.
UNBOUND = object()


def box_need(boxed, held=None):
    """The words of a new box, where a value comes to stand in one and none is there."""
    return BOX_WORDS if boxed and not (held and held.box) else 0


class Heap:
    """Which words are free: of eden, and of each page by runs."""

    def __init__(self, sizes, variables):
        self.sizes = sizes
        self.bound = [UNBOUND] * variables
        self.used = self.survivors = self.scavenges = 0
        # The free runs of each page, as addresses and words, and the words of the longest one.
        self.runs = [[(PAGE_WORDS * page, PAGE_WORDS)] for page in range(sizes.pages)]
        self.longest = [PAGE_WORDS] * sizes.pages
        # The page of the last take, where the next one looks first.
        self.cursor = 0
        # Where the next cell of the command stands, if words of a page were granted for it.
        self.granted = None
        # The cells of pages that may refer to young cells.
        self.watched = set()

    def take(self, words):
        """The address of so many words: the front of the first run that has them, from the page of the last take on."""
        order = (*range(self.cursor, self.sizes.pages), *range(self.cursor))
        page = next((it for it in order if self.longest[it] >= words), None)
        if page is None:
            return None
        runs = self.runs[page]
        place = next(it for it, run in enumerate(runs) if run[1] >= words)
        at, had = runs[place]
        runs[place:place + 1] = [(at + words, had - words)] if had > words else []
        self.longest[page] = max((run[1] for run in runs), default=0)
        self.cursor = page
        return at

    def watch(self, one):
        """Slots of this object have changed."""
        self.watched.update(cell for cell in (one.own, one.store) if cell and cell.at is not None)

    def scavenge(self, all_promoted):
        """Copies what lives of the young cells: survivors, or all, to free runs where they fit."""
        self.scavenges += 1
        self.used = self.survivors = 0
        # A copy that comes to a page is not among these: its slots are followed when its turn comes.
        recorded, copies = sorted(self.watched, key=lambda it: it.at), []
        for value in self.bound:
            if isinstance(value, Object):
                self.follow(value.own, all_promoted, copies)
        for cell in recorded:
            self.follow_slots(cell, all_promoted, copies)
        while copies:
            self.follow_slots(copies.pop(), all_promoted, copies)
        self.watched = {cell for cell in self.watched if any(it.at is None for it in cell.slots())}

    def follow_slots(self, cell, all_promoted, copies):
        """Follows each slot of a cell."""
        for target in cell.slots():
            self.follow(target, all_promoted, copies)

    def follow(self, cell, all_promoted, copies):
        """Copies a young cell that has no copy yet."""
        if cell.at is not None or cell.scavenge == self.scavenges:
            return
        cell.scavenge = self.scavenges
        if all_promoted or cell.has_survived:
            cell.at = self.take(cell.words)
        if cell.at is None:
            self.survivors += cell.words
            cell.has_survived = True
        else:
            self.watched.add(cell)
        copies.append(cell)

    def reached(self):
        """The objects that are reached: the value of an entry is where its map and its key are."""
        found, waiting = {}, {}
        left = list(self.bound)
        while left:
            one = left.pop()
            if not isinstance(one, Object) or one in found:
                continue
            found[one] = None
            left += waiting.pop(one, ())
            if isinstance(one, Plain):
                left.append(one.proto)
            if not isinstance(one, WeakMap):
                left += [it.value for it in one.held()]
                continue
            for key, it in one.entries.items():
                (left if key in found else waiting.setdefault(key, [])).append(it.value)
        return found

    def collect(self):
        """A full collection: dead entries go, what is dead in pages becomes free runs, and all that lives is promoted.

        It answers which objects are reached. The page of the last take stays where the next one looks first.
        """
        found = self.reached()
        for one in found:
            if isinstance(one, WeakMap):
                for key in [key for key in one.entries if key not in found]:
                    one.remove(key)
        live = [cell for one in found for cell in one.cells() if cell.at is not None]
        self.sweep(sorted(live, key=lambda it: it.at))
        self.watched = set(live)
        self.scavenge(True)
        return found

    def begin_cycle(self):
        """Promotes all that is young, as a cycle of marking begins: by a full collection where a survivor stays young."""
        self.scavenge(True)
        if self.survivors:
            self.collect()

    def sweep(self, live):
        """Makes each stretch of words between these cells, which are in order, a free run of its page."""
        self.runs = [[] for _ in self.runs]
        free = 0
        for at, behind in [*((cell.at, cell.at + cell.words) for cell in live), (PAGE_WORDS * self.sizes.pages, 0)]:
            while free < at:
                page = free // PAGE_WORDS
                end = min(at, PAGE_WORDS * (page + 1))
                self.runs[page].append((free, end - free))
                free = end
            free = behind
        self.longest = [max((run[1] for run in runs), default=0) for runs in self.runs]

    def has_eden(self, words):
        """Whether eden has so many words more."""
        return self.survivors + self.used + words <= self.sizes.young

    def serve(self, words):
        """Whether eden has so many words, or a free run, of which they are granted then."""
        if not words or self.has_eden(words):
            return True
        self.granted = self.take(words)
        return self.granted is not None

    def make_room(self, need_of):
        """Finds the words that a command needs. Behind a full collection it is asked again how many these are."""
        self.granted = None
        need = need_of()
        if not need or self.has_eden(need):
            return
        self.scavenge(False)
        if self.serve(need):
            return
        self.collect()
        if not self.serve(need_of()):
            raise Full

    def place(self, cell):
        """Gives a new cell its words, of those that were found for the command."""
        if self.granted is None:
            self.used += cell.words
        else:
            cell.at = self.granted
            self.granted += cell.words
            self.watched.add(cell)
        return cell

    def renew(self, one, capacity):
        """Makes an object a new store or table."""
        if one.store:
            one.store.freeze()
        one.store = self.place(Cell(HEAD_WORDS + capacity, one.store_slots))

    def hold(self, held, value, boxed):
        """Puts a value: into the box that stands there, into a new one, or into the slot itself."""
        held.value = value
        if not boxed:
            held.box = None
        elif held.box is None:
            held.box = self.place(Cell(BOX_WORDS, no_slots))
