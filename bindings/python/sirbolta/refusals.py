"""The refusals, an exception for each number."""

from __future__ import annotations


class Refusal(Exception):
    """A service's refusal: its number, its reason, and its place, which is the lowest index of a bad word or of a byte that is off heading, the entries needed
    (of a census the runs), otherwise 0; of `count_each` also the index of the table that is refused."""

    number: int = 0
    reason: str = ""

    def __init_subclass__(cls) -> None:
        cls.__doc__ = cls.__doc__ or cls.reason.format(place="N")

    def __init__(self, place: int = 0, table: int | None = None) -> None:
        super().__init__(place)
        self.place, self.table = place, table

    def __str__(self) -> str:
        return f"refused {self.number}: {self.reason.format(place=self.place)}" + ("" if self.table is None else f" (table {self.table})")


class TextTooLong(Refusal):
    number, reason = 1, "the text has more than 2,047 samples"


class PatternEmpty(Refusal):
    number, reason = 2, "the pattern has no sample"


class PatternTooLong(Refusal):
    number, reason = 3, "the pattern has more than 2,047 samples"


class WorkTooShort(Refusal):
    number, reason = 4, "the work slice has fewer than 16,384 words"


class TableLength(Refusal):
    number, reason = 5, "the table has no word, an odd number of words, or more than 4,608"


class BadWord(Refusal):
    number, reason = 6, "word {place} of the table is bad"


class NotATable(Refusal):
    number, reason = 7, "no text and chair number has this table, in the order by which it is judged"


class RangePastEnd(Refusal):
    number, reason = 8, "the range or position reaches past the end of the text"


class ResultTooShort(Refusal):
    number, reason = 9, "a result slice is too short: {place} entries, or by a census {place} runs, are needed"


class NoStep(Refusal):
    number, reason = 10, "the pattern has one sample, so no step by which to search a table that holds steps"


class OffHeading(Refusal):
    number, reason = 11, "byte {place} of the text is above 8, so neither rest nor a heading"


class NotAtRest(Refusal):
    number, reason = 12, "the text is empty, or does not begin and end at rest"


class OddWindow(Refusal):
    number, reason = 13, "the runs of a census have 1 to 8 samples"


def refusal(number: int, place: int, table: int | None = None) -> Refusal:
    """The refusal with this number."""
    return _NUMBERED[number](place, table)


_NUMBERED = {kind.number: kind for kind in Refusal.__subclasses__()}
