"""The words of votes: those of the stored run of hb_votes, and those of the tests. Each check yields a place, what the test wants,
and what is made here."""
import importlib.machinery
import importlib.util
import itertools
import os

import rust_values

PATH = os.path.join(os.path.dirname(os.path.abspath(__file__)), "vote_words")


def program():
    """vote_words is a program of its own, whose name has no ending, so it is loaded by its path."""
    loader = importlib.machinery.SourceFileLoader("vote_words", PATH)
    module = importlib.util.module_from_spec(importlib.util.spec_from_loader("vote_words", loader))
    loader.exec_module(module)
    return module


def line_by_line(known):
    """Each line that a test has, and the one that is made."""
    vote_words = program()
    try:
        for name, trace, wanted, full in known(vote_words):
            lines = itertools.zip_longest(wanted.split("\n"), vote_words.in_words(trace, full).split("\n"))
            for number, (line, made) in enumerate(lines, 1):
                yield f"line {number} of {name}", line, made
    except SystemExit as fault:
        raise rust_values.Unreadable(str(fault)) from None


def words_of_a_run(sources):
    return line_by_line(lambda vote_words: vote_words.stored_run(sources.text))


def words_of_votes(sources):
    return line_by_line(lambda vote_words: vote_words.rows(sources.text))


CHECKS = [words_of_a_run, words_of_votes]
