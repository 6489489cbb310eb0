"""A plain reader of value change dumps (IEEE 1364, four-state), apart from the toolkit: the names that the header
declares, and the value of each signal at each time. It takes words between white space, as any reader of dumps does.
It is strict about what a dump of `aig wave` has to be: one bit per signal, codes that count from 0, each code in one
section, every value at time 0, and from then on changes alone."""

import collections

# A name: the scope of its section, the scopes inside that one, the type, the code and the last piece of the name.
Name = collections.namedtuple("Name", "section scopes shape code last")
# A signal: its section, its type, its code, and its names in the order of the header, each with its scopes.
Signal = collections.namedtuple("Signal", "section shape code names")


class NotADump(Exception):
    """Why a text is not taken."""


def number_of(code):
    """The number of a code: its digits in base 94, the least first."""
    digits = [byte - 33 for byte in code]
    if not digits or not all(0 <= digit < 94 for digit in digits) or (len(digits) > 1 and digits[-1] == 0):
        raise NotADump(f"the code {code!r}")
    return sum(digit * 94 ** place for place, digit in enumerate(digits))


class Dump:
    """The names and the signals of a dump, its times, and for each time a list of the signals' values."""

    def __init__(self, data):
        self.words = iter(data.split())
        self.names, self.times, self.frames = [], [], []
        self.declarations()
        self.signals = self.signals_of_names()
        self.places = {signal.code: place for place, signal in enumerate(self.signals)}
        self.changes()

    def section(self):
        """The words up to `$end`."""
        words = []
        for word in self.words:
            if word == b"$end":
                return words
            words.append(word)
        raise NotADump("a section without its end")

    def declarations(self):
        scopes = []
        for word in self.words:
            inside = self.section()
            if word == b"$enddefinitions":
                if scopes:
                    raise NotADump(f"the scopes {scopes} are open where the header ends")
                return
            if word == b"$scope":
                kind, scope = inside
                if kind != b"module":
                    raise NotADump(f"the scope {inside}")
                scopes.append(scope)
            elif word == b"$upscope":
                if inside or not scopes:
                    raise NotADump("a scope is closed that is not open")
                scopes.pop()
            elif word == b"$var":
                shape, width, code, last = inside
                if width != b"1" or not scopes:
                    raise NotADump(f"the signal {inside}")
                self.names.append(Name(scopes[0].decode("ascii"), tuple(scopes[1:]), shape.decode("ascii"), code, last))
            elif word not in (b"$version", b"$timescale", b"$date", b"$comment"):
                raise NotADump(f"{word!r} in the header")
        raise NotADump("the header has no end")

    def signals_of_names(self):
        """The signals in the order of their codes."""
        by_code = {}
        for name in self.names:
            by_code.setdefault(name.code, []).append(name)
        codes = sorted(by_code, key=number_of)
        if [number_of(code) for code in codes] != list(range(len(codes))):
            raise NotADump("codes that do not count from 0")
        signals = []
        for code in codes:
            kinds = {(name.section, name.shape) for name in by_code[code]}
            if len(kinds) > 1:
                raise NotADump(f"the code {code!r} in {kinds}")
            signals.append(Signal(*kinds.pop(), code, [(*name.scopes, name.last) for name in by_code[code]]))
        return signals

    def changes(self):
        now = {}
        for word in self.words:
            if word.startswith(b"#"):
                self.hold(now)
                self.times.append(int(word[1:]))
            elif word == b"$dumpvars":
                now = self.first()
            elif chr(word[0]) in "01x" and word[1:] in now:
                if now[word[1:]] == chr(word[0]):
                    raise NotADump(f"{word!r} at {self.times[-1]} is no change")
                now[word[1:]] = chr(word[0])
            else:
                raise NotADump(f"the change {word!r}")
        if self.times[1:] != sorted(set(self.times[1:])) or self.times[:1] not in ([], [0]):
            raise NotADump("times do not rise from 0")

    def first(self):
        """All values, once each."""
        if self.times != [0]:
            raise NotADump("all values stand at another time than 0")
        words = self.section()
        now = {word[1:]: chr(word[0]) for word in words}
        if not len(words) == len(now) == len(self.signals) or set(now) != set(self.places):
            raise NotADump("not each signal has one value at time 0")
        return now

    def hold(self, now):
        """The values so far are those of the last time."""
        if self.times:
            self.frames.append("".join(now[signal.code] for signal in self.signals))

    def of(self, section):
        """The values of a section's signals, for each time but the last, which ends the dump."""
        places = [place for place, signal in enumerate(self.signals) if signal.section == section]
        return ["".join(frame[place] for place in places) for frame in self.frames]
