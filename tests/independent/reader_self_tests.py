"""Tests of the reader's model itself, so that the real code is not held against a mistake. Each raises on a difference.

The hand-written examples, brute force over small alphabets and about random messages, expat.
"""

import random

from checks import Difference, compare_vectors_written_again, equal
from paper_samples import paper_samples
from reader import first_refusal, read_message, run_machine
from reader_answer import NUMBERS
from reader_brute_force import CONTEXTS, check_context, check_dead, check_every_prefix
from reader_cases import hurt_often, hurt_once, nearly_a_message, short_and_hurt, well_formed
from reader_damage import any_bytes, soup
from reader_examples_read import NO_MESSAGES, read_examples
from reader_examples_refused import refused_examples
from reader_expat import compare_meanings, compare_well_formed
from reader_vector_text import vector_from_text, vector_to_text
from reader_whole import is_well_formed


def chance(name, number):
    """Fixed seeds: the model does not change from run to run, so neither need its tests."""
    return random.Random("%s/%d" % (name, number))


def test_refused(message, refusal, place):
    answer = read_message(message)
    equal(answer.numbers(), (refusal, place) + (0,) * (NUMBERS - 2), "%.80r" % message)


def test_answer(message, expected):
    equal(read_message(message), expected, "%.80r" % message)


def test_prefixes_can_be_ended(make, many):
    for number in range(many):
        message = make(chance("prefixes", number))
        if check_every_prefix(message) is not None and is_well_formed(message):
            raise Difference("%r is called dead and is well formed" % message)


def test_dead_stays_dead(make, many):
    found = 0
    for number in range(many):
        message = make(chance("dead", number))
        _, dead = run_machine(message)
        if dead is not None:
            check_dead(message, dead)
            found += 1
    if found < many // 2:
        raise Difference("only %d of %d messages died" % (found, many))


def test_agrees_with_whole_check(make, many):
    for number in range(many):
        message = make(chance("whole", number))
        machine, dead = run_machine(message)
        equal(dead is None and machine.is_whole(), is_well_formed(message), "%r" % message)


def test_agrees_with_expat(make, many, least):
    """`least` of the messages must be ones that expat can be asked about."""
    compared = sum(compare_well_formed(make(chance("expat", number))) for number in range(many))
    if compared < least:
        raise Difference("only %d of %d messages could be compared" % (compared, many))


def test_meanings_by_expat(make, many):
    for number in range(many):
        message = make(chance("meanings", number))
        if first_refusal(message) is None:
            compare_meanings(message, read_message(message))


def hand_written():
    for label, message, refusal, place in refused_examples():
        yield "example " + label, lambda given=(message, refusal, place): test_refused(*given)
    for label, message in NO_MESSAGES:
        yield "example " + label, lambda message=message: test_refused(message, 13, 0)
    for label, message, expected in read_examples():
        yield "example " + label, lambda given=(message, expected): test_answer(*given)
    for label, message, expected in paper_samples():
        yield "paper " + label, lambda given=(message, expected): test_answer(*given)


def by_brute_force():
    for number, context in enumerate(CONTEXTS, 1):
        yield "all words of context %d" % number, lambda context=context: check_context(*context)
    for make, many in ((well_formed, 12), (hurt_once, 20), (short_and_hurt, 80), (soup, 150)):
        yield "prefixes of %s" % make.__name__, lambda given=(make, many): test_prefixes_can_be_ended(*given)
    for make, many in ((short_and_hurt, 100), (soup, 80), (any_bytes, 40)):
        yield "dead ends of %s" % make.__name__, lambda given=(make, many): test_dead_stays_dead(*given)


def by_second_opinion():
    for make, many, least in ((well_formed, 300, 300), (hurt_once, 1500, 700), (hurt_often, 1500, 500),
                              (short_and_hurt, 2500, 1000), (soup, 2500, 1000), (any_bytes, 1000, 500)):
        yield "whole check of %s" % make.__name__, lambda given=(make, many): test_agrees_with_whole_check(*given)
        yield "expat on %s" % make.__name__, lambda given=(make, many, least): test_agrees_with_expat(*given)
    for make in (well_formed, nearly_a_message, hurt_once):
        yield "meanings of %s by expat" % make.__name__, lambda make=make: test_meanings_by_expat(make, 700)


def all_self_tests(vector_lines):
    """Names and calls of all self tests."""
    yield from hand_written()
    yield from by_brute_force()
    yield from by_second_opinion()
    yield "vectors can be read", (
        lambda: compare_vectors_written_again(vector_lines, vector_from_text, vector_to_text))
