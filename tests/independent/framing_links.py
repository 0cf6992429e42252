"""Two ways to make a framing call: through the driver to the real code, and to the model alone.

Both have the same face, so that what is asked of the real code over whole streams is first asked of the model.
"""

from checks import Difference
from driver import fill, filled_answer, names_of_alarms
from framing import PLACES_NEEDED, STORE_NEEDED, Gathered, gather
from gather_driver import ALARMS
from vector_text import bytes_to_text


def shorten(text, most=200):
    return text if len(text) <= most else text[:most] + "..."


def first_difference(given, expected):
    for place, (one, other) in enumerate(zip(given, expected)):
        if one != other:
            return place
    return min(len(given), len(expected))


def describe_bytes_difference(what, given, expected):
    place = first_difference(given, expected)
    return "%s differs first at place %d: %s, expected %s" % (
        what, place, given[place:place + 8].hex() or "its end", expected[place:place + 8].hex() or "its end")


class ModelLink:
    def __init__(self):
        self.store = fill(STORE_NEEDED, 0)

    def new_store(self, length, seed):
        self.store = fill(length, seed)

    def call(self, boundary, piece, gathered, matched, places=PLACES_NEEDED, answer_seed=0):
        done = gather(boundary, self.store, piece, gathered, matched, places)
        self.store = done.store
        return done

    def end(self):
        """Nothing to check: the model hands its store back whole with every call."""


class RealLink:
    def __init__(self, driver):
        self.driver = driver
        self.new_store(STORE_NEEDED, 0)

    def new_store(self, length, seed):
        self.driver.new_store(length, seed)
        self.store = fill(length, seed)

    def call(self, boundary, piece, gathered, matched, places=PLACES_NEEDED, answer_seed=0):
        """One call of the real code, held against the model."""
        expected = gather(boundary, self.store, piece, gathered, matched, places)
        return self.call_expecting(expected, boundary, piece, gathered, matched, places, answer_seed)

    def call_expecting(self, expected, boundary, piece, gathered, matched, places, answer_seed):
        """One call of the real code. Gives what it did, or raises Difference."""
        reply = self.driver.gather(boundary, piece, gathered, matched, places, answer_seed)
        change_end = reply.change_place + len(reply.change)
        after = self.store
        if reply.change:
            after = after[:reply.change_place] + reply.change + after[change_end:]

        complaints = []
        if reply.alarms:
            complaints.append(names_of_alarms(ALARMS, reply.alarms))
        if reply.returned != expected.refusal:
            complaints.append("returned %d, expected %d" % (reply.returned, expected.refusal))
        complaints += complaints_about_answer(reply.answer, expected.numbers, filled_answer(places, answer_seed))
        if after != expected.store:
            complaints.append(describe_bytes_difference("the store", after, expected.store))
        if complaints:
            raise Difference("boundary=%s g=%d m=%d places=%d store=%d piece=%s: %s" % (
                bytes_to_text(boundary), gathered, matched, places, len(after), shorten(bytes_to_text(piece)),
                "; ".join(complaints)))
        self.store = after
        return Gathered(reply.returned, None if reply.returned else reply.answer[:5], expected.written, after)

    def end(self):
        """The driver tells only changes; now and then the store is looked at whole."""
        whole = self.driver.whole_store()
        if whole != self.store:
            raise Difference(describe_bytes_difference("the store at the end", whole, self.store))


def complaints_about_answer(answer, numbers, untouched):
    expected = untouched if numbers is None else tuple(numbers) + untouched[5:]
    complaints = []
    if answer[:5] != expected[:5]:
        wish = "no change" if numbers is None else "%s" % (expected[:5],)
        complaints.append("the answer begins %s, expected %s" % (answer[:5], wish))
    if answer[5:] != expected[5:]:
        complaints.append("answer place %d changed" % (5 + first_difference(answer[5:], expected[5:])))
    return complaints
