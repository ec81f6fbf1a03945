"""Where the bits of a program are used, as a table: address, name, the word that it was written with, how many contacts it has, and the place of
the first. A contact is a variable with the bit's name in the tree, outside syntax values; counts and places are answers to questions."""
import answers
import bits
import jobs
import panel

HEADING = ("address", "name", "word", "contacts", "first")


def of_functions(found):
    """The bits with their addresses; where the panel check refuses the tree, all its functions."""
    names = jobs.bits_if_taken(found.tree)
    if names is None:
        return bits.without_addresses(found.tree, found.expanded)
    return bits.bits_of(names, found.tree, found.expanded)


def of_variables(names):
    """What an open tree uses and has no function of."""
    return [bits.Bit(None, name, None, None) for name in names]


def row(bit, contacts, first):
    """Without contacts the answer has 0 as first place, which is that of the whole tree."""
    return panel.row((bit.address, bit.name, bit.word, contacts, first if contacts else None))


def table(found):
    summary = jobs.summary(found.tree)
    bound = of_functions(found)
    names = {bit.name for bit in bound}
    listed = [*bound, *of_variables(name for name in answers.names_used(summary) if name not in names)]
    uses = jobs.uses(found.tree, summary, {bit.name for bit in listed})
    return panel.laid_out([HEADING, *(row(bit, *uses[bit.name]) for bit in listed)])
