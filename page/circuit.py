"""The power in one rung, from left to right: signals, each worked out from those before it.

A signal is the live rail; a contact that is closed; power let through by a contact; or power from either of two wires.
"""
from collections import namedtuple

Closed = namedtuple("Closed", "place broken")
Through = namedtuple("Through", "power closed")
Either = namedtuple("Either", "power other")
RAIL = 0  # the first signal, always on


class Circuit:
    def __init__(self):
        self.signals = [None]

    def add(self, signal):
        self.signals.append(signal)
        return len(self.signals) - 1

    def closed(self, contact):
        return self.add(Closed(contact.place, contact.broken))

    def through(self, power, closed):
        return self.add(Through(power, closed))

    def gathered(self, outs):
        """For each of several branches the power from it and those below it, which is gathered upward."""
        ups = [outs[-1]]
        for out in reversed(outs[:-1]):
            ups.append(self.add(Either(out, ups[-1])))
        return ups[::-1]

    def reads(self):
        """The places that the contacts read."""
        return sorted({signal.place for signal in self.signals if isinstance(signal, Closed)})

    def one(self, signal, worked, values):
        if isinstance(signal, Closed):
            return bool(values[signal.place]) != signal.broken
        if isinstance(signal, Through):
            return worked[signal.power] and worked[signal.closed]
        return worked[signal.power] or worked[signal.other]

    def worked(self, values):
        """Every signal, where each place has the value given."""
        worked = [True]
        for signal in self.signals[1:]:
            worked.append(self.one(signal, worked, values))
        return worked
