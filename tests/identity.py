"""Members: their numbers and weights, and how a line spells them."""

from typing import NamedTuple


class Identity(NamedTuple):
    """A member, compared by its weight and then by its number."""

    weight: int
    number: int

    def __str__(self):
        return f"{self.number}/{self.weight}" if self.weight else str(self.number)


def identity_of(word):
    """The member that a word of a line spells."""
    number, slash, weight = word.partition("/")
    return Identity(int(weight) if slash else 0, int(number))


def numbers_of(members):
    """Returns the numbers of members, by which they are distinguished."""
    return [member.number for member in members]
