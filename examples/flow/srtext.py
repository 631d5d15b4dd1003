"""What the scripts of this folder share: reading waveforms (VCD), dumps and netlists, each in one pass, and refusing."""
import re
import sys


class Refused(Exception):
    """Why a file or a word is not read, in one line."""


def run(name, main, usage):
    """Calls main with the words of the command line, and ends with its status; a refusal is one line on standard error, status 2."""
    words = sys.argv[1:]
    try:
        if words in (["-h"], ["--help"]):
            print(usage.strip())
            sys.exit(0)
        status = main(words)
        sys.stdout.flush()
        sys.exit(status)
    except Refused as why:
        print(f"{name}: {why}", file=sys.stderr)
        sys.exit(2)
    except BrokenPipeError:
        sys.stdout = None
        sys.exit(2)


def lines_of(path):
    """Yields the number and the text of each line. Every byte is a letter (Latin-1), so no file fails on its letters."""
    try:
        with open(path, encoding="latin-1") as file:
            yield from enumerate(file, 1)
    except OSError as why:
        raise Refused(f"{path} cannot be read: {why.strerror}") from None


def keys_of(words, known):
    """Parts the words key=value with these keys from the others. A name of a signal has no = in it."""
    keys, others = {}, []
    for word in words:
        key, mark, value = word.partition("=")
        if mark and key not in known:
            raise Refused(f"there is no key {key}: the keys are {', '.join(known)}")
        if mark and key in keys:
            raise Refused(f"the key {key} stands twice")
        if mark:
            keys[key] = value
        else:
            others.append(word)
    return keys, others


def number_of(keys, key, default, least, most):
    """Returns the number that a key gives."""
    value = keys.get(key, str(default))
    if not re.fullmatch("[0-9]{1,18}", value) or not least <= int(value) <= most:
        raise Refused(f"{key}={value}: a number from {least} to {most} is wanted")
    return int(value)


# Waveforms


def unescaped(name):
    """Returns a name without the backslash that Verilog has before one with other letters."""
    return name[1:] if name.startswith("\\") else name


class Wave:
    """A VCD file: its head as it stands, its variables by name, and then, by `moments`, its changes."""

    def __init__(self, path):
        self.path = path
        self.head = []  # the lines before $enddefinitions
        self.width = {}  # by id
        self.variables = {}  # by full name, as uart_tb.dut.rx.shift: the id, and the numbers of the leftmost and rightmost bit
        self.parts = {}  # of a vector whose bits are variables of their own, by its full name: the full names of the bits
        self._lines = lines_of(path)
        self._number = 0
        self._rest = self._read_head()

    def refuse(self, what):
        raise Refused(f"{self.path} line {self._number}: {what}")

    def _read_head(self):
        """Reads up to $enddefinitions, and returns the tokens behind it on its line."""
        scopes, section = [], []
        for self._number, line in self._lines:
            tokens = line.split()
            for at, token in enumerate(tokens):
                if not section and not token.startswith("$"):
                    self.refuse("this is no VCD file")
                section.append(token)
                if token != "$end":
                    continue
                word, section = section[0], section[1:-1]
                if word == "$enddefinitions":
                    self.head.append(line.split("$enddefinitions")[0])
                    return tokens[at + 1 :]
                if word == "$scope" and len(section) == 2:
                    scopes.append(unescaped(section[1]))
                elif word == "$upscope" and scopes:
                    scopes.pop()
                elif word == "$var":
                    self._add(scopes, section)
                elif word in ("$scope", "$upscope"):
                    self.refuse(f"a {word} that is none")
                section = []
            self.head.append(line)
        self.refuse("the file ends before $enddefinitions")

    def _add(self, scopes, section):
        """Adds a variable: its type, width, id, name, and maybe its range."""
        if len(section) < 4 or not section[1].isdecimal():
            self.refuse("a $var that is none")
        kind, width, id, name, *span = section
        width, span = int(width), "".join(span)
        if kind in ("real", "realtime", "string", "event") or not 1 <= width <= 1_000_000:
            return
        joined = re.fullmatch(r"([^\\].*?)(\[-?\d+(?::-?\d+)?\])", name)
        if joined and not span and (width > 1 or ":" in joined[2]):
            name, span = joined[1], joined[2]
        name = ".".join([*scopes, unescaped(name)])
        ends = [int(it) for it in re.findall(r"-?\d+", span)] or [width - 1, 0]
        left, right = ends[0], ends[-1]
        if abs(left - right) + 1 != width:
            self.refuse(f"{name} has {width} bits and the range {span}")
        self.width[id] = width
        if width == 1 and span:
            # One bit of a vector, or a register of one bit, which is called with its number or without.
            self.parts.setdefault(name, []).append(f"{name}[{left}]")
            name = f"{name}[{left}]"
        self.variables[name] = (id, left, right)

    def find(self, name):
        """Returns the bits that a full name stands for, from the left, each its own name, and its id and place: none where there is no such."""
        if name in self.variables:
            id, left, right = self.variables[name]
            if self.width[id] == 1:
                return [(name, (id, 0))]
            step = 1 if left <= right else -1
            return [(f"{name}[{it}]", (id, abs(it - left))) for it in range(left, right + step, step)]
        parts = self.parts.get(name, [])
        if parts:
            bits = [(it, (self.variables[it][0], 0)) for it in parts]
            return bits if len(bits) > 1 else [(name, bits[0][1])]
        vector, _, number = name.rpartition("[")
        if vector in self.variables and re.fullmatch(r"-?[0-9]{1,9}\]", number):
            id, left, right = self.variables[vector]
            if self.width[id] > 1 and min(left, right) <= int(number[:-1]) <= max(left, right):
                return [(name, (id, abs(int(number[:-1]) - left)))]
        return []

    def moments(self):
        """Yields each time at which something changes, with the changes, each an id and the letters of its new value."""
        time, changes, word, skip = 0, [], "", False
        for tokens in self._bodies():
            for token in tokens:
                first = token[0]
                if skip:
                    skip = token != "$end"
                elif word:
                    if word[0] in "bB" and token in self.width:
                        changes.append((token, self._whole(word[1:].lower(), self.width[token])))
                    word = ""
                elif first in "01xXzZuUwW-":
                    if self.width.get(token[1:]) == 1:
                        changes.append((token[1:], first.lower()))
                elif first == "#":
                    if not token[1:].isdecimal() or int(token[1:]) < time:
                        self.refuse(f"{token} is no time, or one that has passed")
                    if int(token[1:]) > time:
                        if changes:
                            yield time, changes
                        time, changes = int(token[1:]), []
                elif first in "bBrRsS":
                    word = token
                elif first == "$":
                    skip = token not in ("$dumpvars", "$dumpall", "$dumpon", "$dumpoff", "$end")
                else:
                    self.refuse(f"{token[:40]} is no change of a value")
        if changes:
            yield time, changes

    def _bodies(self):
        yield self._rest
        for self._number, line in self._lines:
            yield line.split()

    def _whole(self, letters, width):
        """Returns the letters of a vector, with those that were left out: 0 before 0 and 1, else the first letter again."""
        if len(letters) > width or not letters or letters.strip("01xzuw-"):
            self.refuse(f"b{letters[:40]} is no value of {width} bits")
        return letters.rjust(width, "0" if letters[0] in "01" else letters[0])


class Edges:
    """Says of each moment whether the clock rises there (or falls): it is 1 (or 0) now, and was not before."""

    def __init__(self, wave, clock, edge):
        bits = wave.find(clock)
        if len(bits) != 1:
            raise Refused(f"{wave.path} has no signal {clock} of one bit")
        if edge not in ("rise", "fall"):
            raise Refused(f"edge={edge}: rise or fall is wanted")
        self.id, self.place = bits[0][1]
        self.to, self.now = "1" if edge == "rise" else "0", None

    def is_at(self, changes):
        was = self.now
        for id, letters in changes:
            if id == self.id:
                self.now = letters[self.place]
        return was is not None and was != self.to and self.now == self.to


# Dumps and netlists


def read_dump(path):
    """Returns the number of cycles of a dump or table, and its rows, each a name and its letters."""
    cycles, rows, names = None, [], set()
    head = False
    number = 0
    for number, line in lines_of(path):
        parts = line.split("#")[0].split()
        if not parts:
            continue
        if not head:
            if parts != ["srdump", "1"]:
                raise Refused(f"{path} line {number}: a dump begins with the line 'srdump 1'")
            head = True
        elif cycles is None:
            if len(parts) != 2 or parts[0] != "cycles" or not re.fullmatch("[1-9][0-9]{0,3}", parts[1]):
                raise Refused(f"{path} line {number}: the second line of a dump is 'cycles' and their number")
            cycles = int(parts[1])
        elif len(parts) != 2 or len(parts[1]) != cycles or parts[1].strip("01xX"):
            raise Refused(f"{path} line {number}: a row is a name and {cycles} letters of 0, 1 and x")
        elif len(parts[0]) > 255:
            raise Refused(f"{path} line {number}: a name has at most 255 letters")
        elif parts[0] in names:
            raise Refused(f"{path} line {number}: {parts[0]} has a row above")
        else:
            names.add(parts[0])
            rows.append((parts[0], parts[1].lower()))
    if cycles is None:
        raise Refused(f"{path} line {number + 1}: the dump ends before its second line")
    return cycles, rows


def read_netlist(path):
    """Returns of each signal of a netlist its kind, in capitals, and its first pin. Whether the netlist is in order the program says."""
    found = {}
    for number, line in lines_of(path):
        text = line.split("#")[0].strip()
        if not text:
            continue
        name, is_driver, right = text.rpartition("=")
        kind, _, pins = right.partition("(")
        name, kind, pin = name.strip(), kind.strip().upper(), pins[:-1].split(",")[0].strip()
        if not (text.endswith(")") and kind and pin) or bool(is_driver) != bool(name):
            raise Refused(f"{path} line {number}: this is no statement of a netlist")
        if is_driver:
            found[name] = (kind, pin)
        elif kind == "INPUT":
            found[pin] = ("INPUT", "")
        elif kind != "OUTPUT":
            raise Refused(f"{path} line {number}: this is no statement of a netlist")
    return found
