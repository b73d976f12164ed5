"""The output of `regrun-grade run`, taken apart for the programs beside this file.

Python 3.6 or later and its standard library.
"""
import collections, re

COUNT = re.compile(r"(\w+) (\d+) found (\d+) missed(?: (\d+) hidden)?")

# What a line tells of a place: by kind how many are found, missed and hidden, and those missed and those hidden by their
# sort, in words.
Told = collections.namedtuple("Told", "counts missed hidden")


def split_sort(words):
    """A sort of flaws and what they are told by: a number of words, by the first of them, is the sort."""
    words = words.split()
    of_sort = {"stuck": 4, "reset": 3, "policy": 1, "deaf": 1, "address": 2, "item": 1}[words[0]]
    return " ".join(words[:of_sort]), words[of_sort:]


def numbers_of(match):
    """The numbers of a match; those that aren't there are 0."""
    return [int(it or 0) for it in match]


def read(text):
    """The places of an output in order, by name, and its last line."""
    places, (*lines, last) = collections.OrderedDict(), text.rstrip("\n").split("\n")
    for line in lines:
        told, *said = line.split("; ")
        name, _, counts = told.partition(": ")
        sorts = {"missed": collections.OrderedDict(), "hidden": collections.OrderedDict()}
        for verdict, _, flaws in (it.partition(": ") for it in said):
            sorts[verdict].update(map(split_sort, flaws.split(", ")))
        places[name] = Told({kind: tuple(numbers_of(each)) for kind, *each in COUNT.findall(counts)}, **sorts)
    return places, last


def numbers(words):
    """The numbers that `0-2 7` stands for."""
    ends = (word.split("-") for word in words)
    return [number for it in ends for number in range(int(it[0]), int(it[-1]) + 1)]
