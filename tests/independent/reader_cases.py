"""Random reader cases: the message that stands at a number, well formed, damaged, about the limits, or soup."""

from reader_answer import KINDS
from reader_damage import any_bytes, damaged, soup
from reader_limits import LIMIT_CASES, long_message
from reader_messages import Maker

PLACES_NEEDED = 40


def well_formed(rng):
    return Maker(rng, 0.0).message(rng.choice(KINDS))


def nearly_a_message(rng):
    """Well formed; something that is needed may be missing or misnamed."""
    return Maker(rng, 0.15).message(rng.choice(KINDS))


def hurt_once(rng):
    return damaged(rng, well_formed(rng), 1)


def hurt_often(rng):
    return damaged(rng, nearly_a_message(rng), rng.randint(2, 4))


def short_and_hurt(rng):
    """Little besides the damage, so that more of the states meet it."""
    message = rng.choice((b"<Ok inResponseTo=\"7\"/>", b"<SessionOk ID='1'></SessionOk>", b"<SessionOpenRequest/>",
                          b"<a:SessionOpenRequest b='&#55;'>x&amp;<!-- - --></a:SessionOpenRequest >",
                          b"<?xml version='1.0' encoding=\"utf-8\" ?><SessionOk ID='7'/>",
                          b"<?xml version=\"1.0\"?>\n<a/>",
                          b"<Request><QueryRequest ID='7'/></Request>"))
    return damaged(rng, message, rng.randint(1, 2))


def about_limits(rng):
    return rng.choice(LIMIT_CASES)(rng)


def about_limits_and_hurt(rng):
    return damaged(rng, about_limits(rng), 1)


# A round of cases. The long ones are few: they cost as much as a hundred others.
ROUND = ((well_formed,) * 24 + (nearly_a_message,) * 16 + (hurt_once,) * 24 + (hurt_often,) * 8
         + (short_and_hurt,) * 12 + (about_limits,) * 16 + (about_limits_and_hurt,) * 8 + (soup,) * 6 + (any_bytes,) * 5
         + (long_message,))


def random_case(number):
    """The maker that stands at this number; a stride that shares no factor with the round mixes the kinds."""
    return ROUND[number * 37 % len(ROUND)]


def random_places(rng):
    """Places of the answer list: mostly enough, now and then too few."""
    if rng.random() < 0.03:
        return rng.choice((0, 1, 27, 28, 29, 39))
    return rng.choice((PLACES_NEEDED, PLACES_NEEDED, PLACES_NEEDED + 1, 64))
