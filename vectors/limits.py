#!/usr/bin/env python3
"""Writes the records of the calls at their limits to a file: the first part of crates/compare/stdin (tools/records).

usage: limits.py [--list] FILE

Each case below is a call, what is lent and handed in, and what docs/RULES.md says of the answer and of every lent
cell; all of it was worked out from the rules by hand, and none of it by running the port. The floats are Python's
doubles, taken through the rules step by step. --list prints the cases with their places, to find the one that
`compare` names. docs/VECTORS.md describes the records."""
import math
import pathlib
import struct
import sys

CODES = {'new': 1, 'is_valid': 2, 'get': 3, 'pop': 4, 'push': 5, 'update': 6, 'walk': 7, 'draw': 8, 'is_sound': 9,
         'number_below': 10, 'alias new': 11, 'alias draw': 12, 'alias weights': 13, 'alias check': 14,
         'binomial new': 15, 'binomial draw': 16, 'ziggurat round': 17}
MOST = 2 ** 64 - 1
HALF = 2 ** 63
THIRD = 6148914691236517205  # the largest u64 divided by three
END = 4294967295
cases = []


def case(call, name, numbers, lent, answer, after):
    """One record: at most four lists lent and two left; the answer as a list of numbers."""
    cases.append((call, name, numbers, lent, answer, after))


def no(number):
    return [number, 0, 0]


def yes(first, second=0):
    return [0, first, second]


# ---- the tree: what is lent is the store, and for making and drawing a second list
def changes(call, name, store, numbers, answer, after):
    case(call, name, numbers, [store], answer, [after])


def reads(call, store, *questions):
    for name, numbers, answer in questions:
        case(call, name, numbers, [store], answer, [])


def new(name, store, weights, answer, after):
    case('new', name, [], [store, weights], answer, [after])


def draws(store, count, *questions):
    for name, pool, answer in questions:
        case('draw', name, [count], [store, pool], answer, [])


# making: 10, 4, else the subtotals, and cells past the count as they were
new('four weights', [7] * 5, [1, 2, 3, 4], yes(4), [10, 6, 3, 4, 7])
new('no weights', [7, 7], [], yes(0), [7, 7])
new('no weights in no store', [], [], yes(0), [])
new('zeros only', [5] * 4, [0, 0, 0], yes(3), [0, 0, 0, 5])
new('zeros among others', [5] * 4, [0, 2, 0], yes(3), [2, 2, 0, 5])
new('the largest u64 in one slot', [1, 2], [MOST], yes(1), [MOST, 2])
new('a sum of the largest u64', [1, 2, 3], [MOST - 2, 1, 1], yes(3), [MOST, 1, 1])
new('a sum of one more', [1, 2, 3], [MOST - 1, 1, 1], no(4), [1, 2, 3])
new('two largest numbers', [1, 2], [MOST, MOST], no(4), [1, 2])
new('three weights in two cells', [1, 2], [1, 1, 1], no(10), [1, 2])
new('10 before 4', [1, 2], [MOST] * 3, no(10), [1, 2])
new('one weight in no store', [], [1], no(10), [])

# is_valid: 7, else whether the count and cell 0 are above 0
reads('is_valid', [5, 1], ('a total', [1], yes(1)), ('an empty tree over a cell', [0], yes(0)),
      ('a count above the length', [3], no(7)), ('the largest count', [MOST], no(7)))
reads('is_valid', [0, 9], ('a total of 0', [1], yes(0)), ('a total of 0 above a cell', [2], yes(0)))
reads('is_valid', [], ('no store', [0], yes(0)), ('no store and a count', [1], no(7)))

# get: 7, 8, 13 on the one cell, else the weight
reads('get', [10, 6, 3, 4, 99], ('slot 0', [4, 0], yes(1)), ('slot 1, whose other child is past the count', [4, 1], yes(2)),
      ('slot 2', [4, 2], yes(3)), ('slot 3', [4, 3], yes(4)), ('at the count', [4, 4], no(8)),
      ('the largest index', [4, MOST], no(8)), ('7 before 8', [6, 9], no(7)))
reads('get', [5, 6, 0], ('a cell below its left child', [3, 0], no(13)), ('a sound cell beside it', [3, 1], yes(6)),
      ('another', [3, 2], yes(0)), ('8 before 13', [3, 3], no(8)))
reads('get', [5, 3, 3], ('a cell below both children together', [3, 0], no(13)))
reads('get', [MOST] * 3, ('children whose sum is no u64', [3, 0], no(13)), ('a child of the largest u64', [3, 1], yes(MOST)))

# pop: 7, 11, 13 on the path of the last cell, else its weight leaves every parent
changes('pop', 'three slots', [4, 1, 1], [3], yes(1, 2), [3, 1, 0])
changes('pop', 'a grandchild', [10, 6, 3, 4, 8], [4], yes(4, 3), [6, 2, 3, 0, 8])
changes('pop', 'the last slot', [MOST, 3], [1], yes(MOST, 0), [0, 3])
changes('pop', 'an unsound cell off the path', [20, 3, 5, 4, 4, 2], [6], yes(2, 5), [18, 3, 3, 4, 4, 0])
changes('pop', 'an empty tree', [4], [0], no(11), [4])
changes('pop', 'no store', [], [0], no(11), [])
changes('pop', 'a count above the length', [4], [2], no(7), [4])
changes('pop', 'a parent below its child', [10, 3, 3, 4], [4], no(13), [10, 3, 3, 4])
changes('pop', 'cell 0 below its children', [8, 6, 3, 4], [4], no(13), [8, 6, 3, 4])

# push: 7, 10, 13 on the parents of the new cell, 4, else the weight is added to every parent
changes('push', 'a third slot', [2, 0, 7], [2, 1], yes(3), [3, 0, 1])
changes('push', 'a grandchild', [6, 2, 3, 7, 8], [3, 4], yes(4), [10, 6, 3, 4, 8])
changes('push', 'the first slot', [7, 8], [0, MOST], yes(1), [MOST, 8])
changes('push', 'up to the largest u64', [MOST - 1, 5], [1, 1], yes(2), [MOST, 1])
changes('push', 'nothing to the largest u64', [MOST, 5], [1, 0], yes(2), [MOST, 0])
changes('push', 'an unsound cell off the path', [20, 3, 5, 4, 4, 8], [5, 1], yes(6), [21, 3, 6, 4, 4, 1])
changes('push', 'one more than the largest u64', [MOST, 5], [1, 1], no(4), [MOST, 5])
changes('push', 'a full store', [1, 1], [2, 1], no(10), [1, 1])
changes('push', 'no store', [], [0, 1], no(10), [])
changes('push', 'a count above the length', [1, 1], [3, 1], no(7), [1, 1])
changes('push', 'a parent below its child', [10, 2, 3, 4, 9], [4, 1], no(13), [10, 2, 3, 4, 9])
changes('push', 'cell 0 below its children', [1, 5, 0, 9], [3, 1], no(13), [1, 5, 0, 9])
changes('push', '10 before 13', [1, 5, 0], [3, 1], no(10), [1, 5, 0])
changes('push', '13 before 4', [MOST - 1, MOST, 0, 9], [3, MOST], no(13), [MOST - 1, MOST, 0, 9])

# update: 7, 8, 13 on the path of the cell, 4, else the cell and every parent change by the difference
changes('update', 'a slot of 0', [3, 0, 1], [3, 1, 1], yes(3), [4, 1, 1])
changes('update', 'a fall', [10, 6, 3, 4, 8], [4, 3, 1], yes(4), [7, 3, 3, 1, 8])
changes('update', 'to 0', [10, 6, 3, 4], [4, 0, 0], yes(4), [9, 6, 3, 4])
changes('update', 'to the same', [10, 6, 3, 4], [4, 1, 2], yes(4), [10, 6, 3, 4])
changes('update', 'up to the largest u64', [10, 6, 3, 4], [4, 0, MOST - 9], yes(4), [MOST, 6, 3, 4])
changes('update', 'an unsound cell off the path', [20, 3, 5, 4, 4, 2], [6, 5, 3], yes(6), [21, 3, 6, 4, 4, 3])
changes('update', 'one more than the largest u64', [10, 6, 3, 4], [4, 0, MOST - 8], no(4), [10, 6, 3, 4])
changes('update', 'at the count', [10, 6, 3, 4, 8], [4, 4, 1], no(8), [10, 6, 3, 4, 8])
changes('update', 'in an empty tree', [10], [0, 0, 1], no(8), [10])
changes('update', 'a count above the length', [1, 1], [3, 0, 1], no(7), [1, 1])
changes('update', 'the cell below its child', [10, 3, 3, 4], [4, 1, 9], no(13), [10, 3, 3, 4])
changes('update', 'a parent below its children', [8, 6, 3, 4], [4, 3, 0], no(13), [8, 6, 3, 4])
changes('update', '13 before 4', [8, 6, 3, 4], [4, 3, MOST], no(13), [8, 6, 3, 4])

# walk: 7, 3, 9, 13 on the cells visited, else the slot
reads('walk', [10, 6, 3, 4, 99], *[(f'target {t}', [4, t], yes(i)) for t, i in enumerate([3, 3, 3, 3, 1, 1, 2, 2, 2, 0])],
      ('at the total', [4, 10], no(9)), ('the largest target', [4, MOST], no(9)), ('an empty tree', [0, 0], no(3)),
      ('7 before 3', [6, 0], no(7)))
reads('walk', [4, 0, 4], ('past a child of 0', [3, 0], yes(2)))
reads('walk', [0, 0], ('a total of 0', [2, 0], no(3)), ('3 before 9', [2, MOST], no(3)))
reads('walk', [MOST], ('the last target of the largest u64', [1, MOST - 1], yes(0)), ('the largest u64 itself', [1, MOST], no(9)))
reads('walk', [10, 6, 3, 7], ('an unsound cell on the way', [4, 0], no(13)), ('the same cell off the way', [4, 6], yes(2)),
      ('9 before 13', [4, 10], no(9)))
reads('walk', [5, 6, 3], ('an unsound cell 0', [3, 4], no(13)))
reads('walk', [MOST] * 3, ('children whose sum is no u64', [3, 0], no(13)))

# draw: 7, 3, 12, 13, else the slot of the first accepted word's target, and the words up to it.
# 2^64 leaves 6 by 10, 4 by 6, 0 by 1 and by 2^63, 1 by 2^64 - 1, and 2^63 - 1 by 2^63 + 1.
draws([10, 6, 3, 4], 4, ('target 3', [13], yes(3, 1)), ('two words refused', [MOST, MOST - 5, 25], yes(1, 3)),
      ('the last accepted word', [MOST - 6], yes(0, 1)), ('words left over', [9, 0, 0], yes(0, 1)),
      ('an empty pool', [], no(12)), ('refused words only', [MOST, MOST - 1], no(12)))
draws([6, 1], 2, ('T = 6, the last four words and the fifth', [MOST - k for k in range(5)], yes(0, 5)), ('T = 6, target 0', [12], yes(1, 1)))
draws([1], 1, ('T = 1, the last word', [MOST], yes(0, 1)))
draws([MOST, 1], 2, ('T the largest u64, its one refused word', [MOST, MOST - 1], yes(0, 2)), ('T the largest u64, target 0', [0], yes(1, 1)))
draws([HALF, 1], 2, ('T = 2^63, the last word', [MOST], yes(0, 1)), ('T = 2^63, target 0', [HALF], yes(1, 1)))
draws([HALF + 1, 1], 2, ('T = 2^63 + 1, the last accepted word', [HALF], yes(0, 1)),
      ('T = 2^63 + 1, the first refused word', [HALF + 1, 0], yes(1, 2)), ('T = 2^63 + 1, no accepted word', [MOST, HALF + 1], no(12)))
draws([10, 6, 3, 4], 0, ('an empty tree', [3], no(3)), ('3 before 12', [], no(3)))
draws([0, 0], 2, ('a total of 0', [3], no(3)))
draws([10, 6, 3, 4], 5, ('a count above the length', [3], no(7)), ('7 before 3', [], no(7)))
draws([10, 6, 3, 7], 4, ('an unsound cell on the way', [0], no(13)), ('the same after a skipped word', [MOST, 0], no(13)),
      ('the same cell off the way', [6], yes(2, 1)), ('12 before 13', [], no(12)))

# is_sound: 7, else whether every cell below the count is sound
reads('is_sound', [10, 6, 3, 4, 99], ('a sound tree', [4], yes(1)), ('a count above the length', [6], no(7)),
      ('an empty tree', [0], yes(1)), ('one cell more', [5], yes(0)))
reads('is_sound', [8, 6, 3, 4], ('cell 0 below its children', [4], yes(0)), ('cells past the count are not looked at', [1], yes(1)))
reads('is_sound', [10, 3, 3, 4], ('cell 1 below its child', [4], yes(0)))
reads('is_sound', [MOST] * 3, ('children whose sum is no u64', [3], yes(0)))


# 4,096 slots and one more. The subtotals of n ones: a cell holds as many as stand in its part of the tree.
def ones(n):
    size = [1] * n
    for i in range(n - 1, 0, -1):
        size[(i - 1) // 2] += size[i]
    return size


full = ones(4096)
new('4,096 slots', [9] * 4096, [1] * 4096, yes(4096), full)
new('4,096 slots, lent longer', [9] * 4100, [1] * 4096, yes(4096), full + [9] * 4)
new('4,097 slots', [9] * 4097, [1] * 4097, no(10), [9] * 4097)
new('4,097 slots in 4,096 cells', [9] * 4096, [1] * 4097, no(10), [9] * 4096)
changes('push', 'the 4,096th slot, lent longer', ones(4095) + [9, 9], [4095, 1], yes(4096), full + [9])
changes('push', 'a 4,097th slot', full + [9], [4096, 1], no(10), full + [9])
changes('push', 'a count of 4,097', full + [9], [4097, 1], no(7), full + [9])
changes('pop', 'the 4,096th slot', full + [9], [4096], yes(1, 4095), ones(4095) + [0, 9])
changes('pop', 'a count of 4,097', full + [9], [4097], no(7), full + [9])
changes('update', 'the 4,096th slot', full, [4096, 4095, 0], yes(4096), ones(4095) + [0])
changes('update', 'a count of 4,097', full + [9], [4097, 0, 1], no(7), full + [9])
reads('walk', full + [9], ('the first target of 4,096 slots', [4096, 0], yes(4095)), ('the last', [4096, 4095], yes(0)),
      ('a count of 4,097', [4097, 0], no(7)))
reads('get', full + [9], ('slot 4,095', [4096, 4095], yes(1)), ('a count of 4,097', [4097, 4095], no(7)))
reads('is_sound', full + [9], ('4,096 slots', [4096], yes(1)), ('a count of 4,097', [4097], no(7)))
reads('is_valid', full + [9], ('4,096 slots', [4096], yes(1)), ('a count of 4,097', [4097], no(7)))
draws(full + [9], 4096, ('the first target of 4,096 slots', [0], yes(4095, 1)))
draws(full + [9], 4097, ('a count of 4,097', [0], no(7)))


# ---- a number from words: the first accepted word modulo T, and its place
def takes(total, *questions):
    for name, pool, answer in questions:
        case('number_below', f'T = {total}, {name}', [total], [pool], answer, [])


takes(6, ('the last four words and the fifth', [MOST - k for k in range(5)], yes(5, 5)), ('an empty pool', [], no(12)),
      ('refused words only', [MOST, MOST - 3], no(12)), ('words left over', [20, 7], yes(2, 1)))
takes(1, ('the last word', [MOST], yes(0, 1)))
takes(0, ('any words', [0, MOST], no(12)), ('an empty pool', [], no(12)))
takes(HALF, ('the last word', [MOST], yes(HALF - 1, 1)))
takes(HALF + 1, ('the last accepted word', [HALF], yes(HALF, 1)), ('the first refused one', [HALF + 1, 3], yes(3, 2)))
takes(MOST, ('the one refused word', [MOST], no(12)), ('the last accepted one', [MOST, MOST - 1], yes(MOST - 1, 2)))


# ---- the alias table: what is lent is the weights or the odds first, then what the call has besides, in its order
def built(name, weights, sum_of, odds, links):
    """A table that is made, over cells that held something else; and the other calls over it."""
    n = len(weights)
    case('alias new', name, [], [weights, [7] * n, [9] * n], yes(sum_of), [odds, links])
    case('alias weights', name, [sum_of], [odds, links, [7] * n], yes(n), [weights])
    checked(name, weights, odds, links, 1)


def unbuilt(name, weights, odds, links, number):
    case('alias new', name, [], [weights, odds, links], no(number), [odds, links])


def alias_draws(odds, links, sum_of, *questions):
    for name, pool, answer in questions:
        case('alias draw', name, [sum_of], [odds, links, pool], answer, [])


def weighed(name, odds, links, sum_of, answer, after, output=None):
    case('alias weights', name, [sum_of], [odds, links, [7] * len(odds) if output is None else output], answer, [after])


def checked(name, weights, odds, links, says):
    n = len(weights)
    case('alias check', name, [], [weights, odds, links, [7] * n], yes(says), [[n * w for w in weights] if says else [0] * n])


def unchecked(name, weights, odds, links, work, number):
    case('alias check', name, [], [weights, odds, links, work], no(number), [work])


# the builder: the lists run through the links; a slot that is left on one keeps its link and has odds S
built('1, 3', [1, 3], 4, [2, 4], [1, END])
built('1, 2, 3', [1, 2, 3], 6, [3, 6, 6], [2, END, 1])
built('two of the same', [5, 5], 10, [10, 10], [END, 0])
built('a big slot that becomes small', [1, 2, 2], 5, [3, 5, 4], [2, END, 1])
built('one heavy', [1, 1, 1, 5], 8, [4, 4, 4, 8], [3, 3, 3, END])
built('two small and two big', [2, 1, 3, 6], 12, [8, 4, 12, 12], [3, 3, END, 2])
built('zeros among others', [0, 2, 0], 2, [0, 2, 0], [1, END, 1])
built('one slot with the largest u64', [MOST], MOST, [MOST], [END])
built('one slot', [1], 1, [1], [END])
built('the largest weight of three slots', [THIRD] * 3, MOST, [MOST] * 3, [END, 0, 1])
built('the largest weight of two slots', [HALF - 1, 1], HALF, [HALF, 2], [END, 0])
for k in range(3):
    heavy = [THIRD + (i == k) for i in range(3)]
    unbuilt(f'one more than the largest of three, in slot {k}', heavy, [7] * 3, [9] * 3, 2)
    unchecked(f'one more than the largest of three, in slot {k}', heavy, [MOST] * 3, [END, 0, 1], [7] * 3, 2)
unbuilt('one more than the largest of two', [HALF, 0], [7, 7], [9, 9], 2)
unbuilt('no weights', [], [], [], 1)
unbuilt('1 before 14', [], [7], [9], 1)
unbuilt('zeros only', [0, 0], [7, 7], [9, 9], 3)
unbuilt('short odds', [1, 3], [7], [9, 9], 14)
unbuilt('long odds', [1, 3], [7, 7, 7], [9, 9], 14)
unbuilt('no odds', [1, 3], [], [9, 9], 14)
unbuilt('short links', [1, 3], [7, 7], [9], 14)
unbuilt('long links', [1, 3], [7, 7], [9, 9, 9], 14)
unbuilt('14 before 2', [HALF, 0], [7], [9, 9], 14)
unbuilt('14 before 3', [0, 0], [7, 7], [9], 14)

# draw: the slot first, then the number below S. 2^64 leaves 0 by 2 and by 4, 1 by 3 and 4 by 6.
alias_draws([2, 4], [1, END], 4, ('below the odds', [0, 1], yes(0, 2)), ('at the odds', [0, 2], yes(1, 2)), ('the last number', [0, 3], yes(1, 2)),
            ('a full slot', [1, 3], yes(1, 2)), ('words modulo', [MOST - 1, 13], yes(0, 2)), ('words left over', [1, 0, 5], yes(1, 2)),
            ('an empty pool', [], no(12)), ('one word short', [0], no(12)))
alias_draws([3, 6, 6], [2, END, 1], 6, ('words skipped for both', [MOST, 3, MOST, MOST - 3, 4], yes(2, 5)), ('no accepted slot', [MOST, MOST], no(12)),
            ('no accepted number', [1, MOST, MOST - 3], no(12)), ('one word short after a skipped one', [MOST, 3], no(12)))
alias_draws([2, 4], [2, END], 4, ('a followed link of n', [0, 2], no(13)), ('the same link not followed', [0, 1], yes(0, 2)), ('12 before 13', [0], no(12)))
alias_draws([2, 3], [0, END], 4, ('a followed end mark', [1, 3], no(13)), ('a slot that is linked to itself', [0, 3], yes(0, 2)))
alias_draws([9], [END], 4, ('odds above S', [5, 3], yes(0, 2)))
alias_draws([0], [0], 1, ('odds of 0', [5, 3], yes(0, 2)))
alias_draws([5], [0], MOST, ('S the largest u64, its one refused word', [0, MOST, MOST - 1], yes(0, 3)))
alias_draws([2, 4], [1, END], 0, ('S = 0', [0, 1], no(3)), ('3 before 12', [], no(3)))
alias_draws([], [], 4, ('no slots', [0, 1], no(1)))
alias_draws([], [1], 0, ('1 before 14 and 3', [], no(1)))
alias_draws([2, 4], [1], 4, ('short links', [0, 1], no(14)))
alias_draws([2, 4], [1, END, 0], 0, ('long links, 14 before 3', [0, 1], no(14)))

# weights: the odds as they are, and what is lent, divided by n
weighed('the remainder dropped', [3, 4], [1, END], 4, yes(2), [1, 2])
weighed('odds above S as they are', [5], [7], 1, yes(1), [5])
weighed('links that are not followed', [4, 4], [END, END], 4, yes(2), [2, 2])
weighed('a followed link of n', [3, 4], [2, 0], 4, no(13), [0, 0])
weighed('a followed end mark', [3, 4], [END, 0], 4, no(13), [0, 0])
weighed('a sum of the largest u64', [MOST - 1, 0], [0, 0], 1, yes(2), [HALF - 1, 0])
weighed('a sum of one more', [MOST, 0], [0, 0], 1, no(13), [0, 0])
weighed('two that lend the largest u64', [0, 0], [0, 0], MOST, no(13), [0, 0])
weighed('one that lends itself the largest u64', [0], [0], MOST, yes(1), [MOST])
weighed('no slots', [], [], 4, no(1), [7], [7])
weighed('1 before 14', [], [1], 0, no(1), [7], [7])
weighed('short links', [2, 4], [1], 4, no(14), [7, 7])
weighed('long links', [2, 4], [1, END, 0], 4, no(14), [7, 7])
weighed('a short output', [2, 4], [1, END], 4, no(14), [7], [7])
weighed('a long output', [2, 4], [1, END], 4, no(14), [7] * 3, [7] * 3)
weighed('no output', [2, 4], [1, END], 4, no(14), [], [])
weighed('S = 0', [2, 4], [1, END], 0, no(3), [7, 7])
weighed('14 before 3', [2, 4], [1], 0, no(14), [7, 7])

# check: yes where every index has n times its weight of the pairs
checked('a full slot that is linked to itself', [1, 3], [2, 4], [1, 1], 1)
checked('another fair table', [1, 3], [0, 2], [1, 0], 1)
checked('odds above S', [1, 3], [2, MOST], [1, END], 1)
checked('one slot with odds above S', [1], [5], [END], 1)
checked('odds S everywhere', [1, 3], [4, 4], [1, END], 0)
checked('a link of n', [1, 3], [2, 4], [2, END], 0)
checked('one number too few', [3], [2], [1], 0)
checked('slots exchanged', [3, 1], [2, 4], [1, END], 0)
checked('a sum past u64', [HALF - 1, HALF - 1], [0, 0], [0, 0], 0)
checked('a sum of 2^64, which would wrap to its weight of 0', [0, THIRD, THIRD], [2 * THIRD, THIRD - 1, 2 * THIRD], [END, 0, END], 0)
unchecked('no weights', [], [], [], [], 1)
unchecked('1 before 14', [], [7], [], [7], 1)
unchecked('zeros only', [0, 0], [2, 4], [1, END], [7, 7], 3)
unchecked('a weight too heavy', [HALF, 0], [2, 4], [1, END], [7, 7], 2)
unchecked('short odds', [1, 3], [2], [1, END], [7, 7], 14)
unchecked('long odds', [1, 3], [2, 4, 4], [1, END], [7, 7], 14)
unchecked('short links', [1, 3], [2, 4], [1], [7, 7], 14)
unchecked('long links', [1, 3], [2, 4], [1, END, 0], [7, 7], 14)
unchecked('a short work slice', [1, 3], [2, 4], [1, END], [7], 14)
unchecked('a long work slice', [1, 3], [2, 4], [1, END], [7] * 3, 14)
unchecked('14 before 2', [HALF, 0], [2, 4], [1, END], [7], 14)

# 4,096 slots and one more: every slot has odds S, and the big list runs down through all of them
run_down = [END] + list(range(4095))
built('4,096 slots', [1] * 4096, 4096, [4096] * 4096, run_down)
alias_draws([4096] * 4096, run_down, 4096, ('the 4,096th slot', [4095, 5], yes(4095, 2)), ('a slot modulo', [4096, 4095], yes(0, 2)))
more, one_more = [1] * 4097, [0] * 4097
unbuilt('4,097 slots', more, more, one_more, 10)
unbuilt('4,097 slots, 10 before 14', more, [7], [9], 10)
alias_draws(more, one_more, 1, ('4,097 slots', [0, 0], no(10)))
alias_draws(more, [], 0, ('4,097 slots, 10 before 14 and 3', [0, 0], no(10)))
weighed('4,097 slots', more, one_more, 1, no(10), more, more)
weighed('4,097 slots, 10 before 14', more, [], 1, no(10), [7], [7])
unchecked('4,097 slots', more, more, one_more, more, 10)
unchecked('4,097 slots, 10 before 14', more, [7], [9], [7], 10)


# ---- floats: a record has their bits
NAN_BITS = 0x7FF8000000000000


def bits(x):
    return NAN_BITS if math.isnan(x) else struct.unpack('>Q', struct.pack('>d', x))[0]


def double(pattern):
    return struct.unpack('>d', struct.pack('>Q', pattern))[0]


def top(word):
    return word >> 12


def unit(word):
    return top(word) / 2 ** 52


def word_of(u):
    """The word of a unit with at most 52 digits."""
    return int(u * 2 ** 52) << 12


TINY = double(1)                      # the smallest subnormal
BELOW_1 = 1 - 2.0 ** -53
ABOVE_1 = 1 + 2.0 ** -52
BELOW_HALF = 0.5 - 2.0 ** -54
ABOVE_HALF = 0.5 + 2.0 ** -53
TRIALS = 1048576
INF = math.inf
NAN = math.nan


# ---- the binomial setup: 5, 6, 15, then the constants, then 16, 17
def power(q, n):
    made, current = 1.0, q
    while n:
        if n % 2:
            made *= current
        current *= current
        n //= 2
    return made


def refuses_setup(name, n, pattern, number):
    case('binomial new', name, [n, pattern], [], [number] + [0] * 6, [])


def constant(name, n, p, count):
    case('binomial new', name, [n, bits(p)], [], [0, 0, count, 0, 0, 0, 0], [])


def binv_of(n, p):
    flip = p > 0.5
    low = 1 - p if flip else p
    q = 1 - low
    s = low / q
    return [power(q, n), s, (n + 1) * s, n, flip]


def sets_up(name, n, p, flip):
    r, s, a, n, flipped = binv_of(n, p)
    assert flipped == flip
    case('binomial new', name, [n, bits(p)], [], [0, 1, n, bits(r), bits(s), bits(a), int(flip)], [])


for pattern in (NAN_BITS, 0x7FF0000000000001, 0xFFF8000000000000, 0xFFFFFFFFFFFFFFFF):
    refuses_setup(f'p a NaN, {pattern:x}', 3, pattern, 5)
for p in (-1.0, -TINY, -INF):
    refuses_setup(f'p = {p}', 3, bits(p), 5)
for p in (ABOVE_1, 2.0, INF):
    refuses_setup(f'p = {p}', 3, bits(p), 6)
refuses_setup('n of one more than 1,048,576', TRIALS + 1, bits(0.5), 15)
refuses_setup('the largest n', MOST, bits(0.5), 15)
refuses_setup('15 before the constants, p = 0', TRIALS + 1, bits(0.0), 15)
refuses_setup('15 before the constants, p = 1', TRIALS + 1, bits(1.0), 15)
refuses_setup('5 before 15', TRIALS + 1, NAN_BITS, 5)
refuses_setup('6 before 15', TRIALS + 1, bits(2.0), 6)
for n in (0, 1, 110, TRIALS):
    constant(f'p = 0, n = {n}', n, 0.0, 0)
    constant(f'p of minus zero, n = {n}', n, -0.0, 0)
    constant(f'p = 1, n = {n}', n, 1.0, n)
sets_up('n = 19 at 0.5', 19, 0.5, False)
refuses_setup('n = 20 at 0.5', 20, bits(0.5), 16)
sets_up('n = 20 just below 0.5', 20, BELOW_HALF, False)
sets_up('n = 20 just above 0.5', 20, ABOVE_HALF, True)
refuses_setup('n = 21 just above 0.5', 21, bits(ABOVE_HALF), 16)
sets_up('n = 2 at 0.5', 2, 0.5, False)
sets_up('n = 3 at 0.4', 3, 0.4, False)
sets_up('n = 3 at 0.6', 3, 0.6, True)
sets_up('n = 0', 0, 0.3, False)
sets_up('n = 0, flipped', 0, 0.7, True)
sets_up('n = 1', 1, 0.25, False)
sets_up('n = 110', 110, 0.05, False)
sets_up('n = 111', 111, 0.95, True)
sets_up('n = 1,048,576', TRIALS, 9 * 2.0 ** -20, False)
refuses_setup('n = 1,048,576 with a product of 10', TRIALS, bits(10 * 2.0 ** -20), 16)
sets_up('a product just below 10', TRIALS, 10 * 2.0 ** -20 - 2.0 ** -69, False)
refuses_setup('p the smallest subnormal', 3, bits(TINY), 17)
refuses_setup('p the smallest subnormal, n = 0', 0, bits(TINY), 17)
refuses_setup('p = 2^-54', 3, bits(2.0 ** -54), 17)
sets_up('p just above 2^-54', 3, double(bits(2.0 ** -54) + 1), False)
sets_up('p = 2^-53', 3, 2.0 ** -53, False)
sets_up('p just below 1', 3, BELOW_1, True)


# ---- BINV: an attempt for each unit until one ends; 15, 12
def counts(r, s, a, n, flip, pool):
    for attempts, word in enumerate(pool, 1):
        u, left, x = unit(word), r, 0
        while u > left:
            u -= left
            x += 1
            if x > 110 or x > n:
                break
            left *= a / x - s
        else:
            return yes(n - x if flip else x, attempts)
    return no(12)


def binv(name, setup, pool, answer):
    """The answer as the case says it: `counts`, which goes through the rule, must say the same."""
    r, s, a, n, flip = setup
    assert n > TRIALS or counts(r, s, a, n, flip, pool) == answer, (name, counts(r, s, a, n, flip, pool))
    case('binomial draw', name, [1, n, bits(r), bits(s), bits(a), int(flip)], [pool], answer, [])


def constant_draw(name, count, pool, answer):
    case('binomial draw', name, [0, count, 0, 0, 0, 0], [pool], answer, [])


two = binv_of(2, 0.5)
for u, x in ((0.5, 1), (0.75, 1), (0.875, 2), (0.25, 0)):
    binv(f'n = 2 at 0.5, unit {u}', two, [word_of(u)], yes(x, 1))
binv('n = 2 at 0.5, the last word', two, [MOST], yes(2, 1))
binv('n = 2 at 0.5, word 0', two, [0, 5], yes(0, 1))
binv('n = 2 at 0.5, an empty pool', two, [], no(12))
binv('n = 3 at 0.6, flipped', binv_of(3, 0.6), [word_of(0.5)], yes(2, 1))
binv('n = 3 at 0.6, word 0', binv_of(3, 0.6), [0], yes(3, 1))
binv('n = 0', binv_of(0, 0.3), [MOST], yes(0, 1))
constant_draw('a constant, from an empty pool', 7, [], yes(7, 0))
constant_draw('a constant leaves the words', 7, [1, 2], yes(7, 0))
constant_draw('a constant of 0', 0, [], yes(0, 0))
constant_draw('a constant of 1,048,576', TRIALS, [], yes(TRIALS, 0))
constant_draw('a constant of one more', TRIALS + 1, [1], no(15))
constant_draw('the largest constant', MOST, [], no(15))
binv('n of one more than 1,048,576', [0.5, 1.0, 1.0, TRIALS + 1, False], [0], no(15))
binv('15 before 12', [0.5, 1.0, 1.0, TRIALS + 1, False], [], no(15))
# with s = -1 and a = 0 each step takes the same r from u: a unit of c times r ends at c - 1
even = 2.0 ** -10
for n, c, answer in ((TRIALS, 111, yes(110, 1)), (TRIALS, 112, no(12)), (111, 112, no(12)), (110, 111, yes(110, 1)), (109, 111, no(12)),
                     (109, 110, yes(109, 1)), (5, 6, yes(5, 1)), (5, 7, no(12)), (0, 1, yes(0, 1)), (0, 2, no(12))):
    binv(f'even steps, n = {n}, up to {c - 1}', [even, -1.0, 0.0, n, False], [word_of(c * even)], answer)
binv('even steps, flipped, at n', [even, -1.0, 0.0, 5, True], [word_of(6 * even)], yes(0, 1))
binv('even steps, flipped, past n', [even, -1.0, 0.0, 5, True], [word_of(7 * even), word_of(3 * even)], yes(3, 2))
binv('x above n', [0.25, -1.0, 0.0, 0, False], [word_of(0.5)], no(12))
binv('x above n, flipped', [0.25, -1.0, 0.0, 0, True], [word_of(0.5)], no(12))
binv('every attempt gives up', [0.0, 0.0, 0.0, 5, False], [MOST, 4096, 4097], no(12))
binv('two give up', [0.0, 0.0, 0.0, 5, False], [MOST, 4096, 4095, 7], yes(0, 3))
for name, r, s, a, answer in (('r a NaN', NAN, 1.0, 3.0, yes(0, 1)), ('r infinite', INF, 1.0, 3.0, yes(0, 1)), ('r minus infinite', -INF, 0.0, 1.0, no(12)),
                              ('r negative', -1.0, 0.0, 1.0, no(12)), ('r zero', 0.0, 1.0, 3.0, no(12)), ('r minus zero', -0.0, 1.0, 3.0, no(12)),
                              ('s a NaN', 0.25, NAN, 3.0, yes(1, 1)), ('s infinite', 0.25, INF, 3.0, yes(2, 1)), ('s minus infinite', 0.25, -INF, 3.0, yes(1, 1)),
                              ('a a NaN', 0.25, 1.0, NAN, yes(1, 1)), ('a infinite', 0.25, 1.0, INF, yes(1, 1)), ('a minus infinite', 0.25, 1.0, -INF, yes(2, 1)),
                              ('s and a infinite', 0.25, INF, INF, yes(1, 1)), ('s zero, a negative', 0.25, 0.0, -3.0, no(12)), ('all subnormal', TINY, TINY, TINY, no(12))):
    binv(name, [r, s, a, 9, False], [word_of(0.875)], answer)


# ---- one ziggurat round: 14, 12
def u_of(symmetric, word):
    return (top(word) - 2 ** 51) / 2 ** 51 if symmetric else (2 * top(word) + 1) / 2 ** 53


def rounded(symmetric, x_table, f_table, pool):
    if len(x_table) != 257 or len(f_table) != 257:
        return [14, 0, 0, 0, 0]
    if not pool:
        return [12, 0, 0, 0, 0]
    i, u = pool[0] % 256, u_of(symmetric, pool[0])
    x = u * x_table[i]
    if (abs(x) if symmetric else x) < x_table[i + 1]:
        return [0, 1, bits(x), 0, 1]
    if i == 0:
        return [0, 2, bits(u), 0, 1]
    if len(pool) < 2:
        return [12, 0, 0, 0, 0]
    return [0, 3, bits(x), bits(f_table[i + 1] + (f_table[i] - f_table[i + 1]) * unit(pool[1])), 2]


def rounds(name, x_table, f_table, pool, kinds):
    """In both forms; `kinds` has the refusal's number or the kind that each is to end with, symmetric first."""
    for symmetric, kind in zip((1, 0), kinds):
        answer = rounded(symmetric, x_table, f_table, pool)
        assert kind == (-answer[0] if answer[0] else answer[1]), (name, symmetric, answer)
        case('ziggurat round', f'{name}, {"symmetric" if symmetric else "one-sided"}', [symmetric],
             [[bits(x) for x in x_table], [bits(f) for f in f_table], pool], answer, [])


SAMPLE, TAIL, WEDGE = 1, 2, 3
falling = [float(257 - i) for i in range(257)]        # X falls: outer words end in the tail or a wedge
rising = [float(i) for i in range(257)]               # X rises: every word of a layer above 0 is a sample
heights = [i / 256 for i in range(257)]
rounds('word 0', falling, heights, [0], (TAIL, SAMPLE))
rounds('the last word', falling, heights, [MOST, MOST], (WEDGE, WEDGE))
rounds('the last word of layer 0', falling, heights, [MOST - 255], (TAIL, TAIL))
rounds('the middle of layer 0', falling, heights, [HALF], (SAMPLE, SAMPLE))
rounds('the middle of layer 9', rising, heights, [HALF + 9, 1], (SAMPLE, SAMPLE))
rounds('word 0, rising', rising, heights, [0], (SAMPLE, SAMPLE))
rounds('the last word, rising', rising, heights, [MOST], (SAMPLE, SAMPLE))
rounds('a wedge with word 0', falling, heights, [MOST, 0], (WEDGE, WEDGE))
rounds('a wedge with words left over', falling, heights, [MOST, HALF, 3], (WEDGE, WEDGE))
rounds('a wedge with one word left', falling, heights, [MOST], (-12, -12))
rounds('an empty pool', falling, heights, [], (-12, -12))
rounds('X of 256', falling[:256], heights, [0], (-14, -14))
rounds('X of 258', falling + [0.0], heights, [0], (-14, -14))
rounds('no X', [], heights, [0], (-14, -14))
rounds('F of 256', falling, heights[:256], [0], (-14, -14))
rounds('F of 258', falling, heights + [0.0], [0], (-14, -14))
rounds('14 before 12', falling[:256], heights, [], (-14, -14))
for name, value, kinds in (('NaN', NAN, (WEDGE, WEDGE)), ('infinities', INF, (WEDGE, WEDGE)), ('minus infinities', -INF, (WEDGE, WEDGE)), ('zeros', 0.0, (WEDGE, WEDGE)),
                           ('minus zeros', -0.0, (WEDGE, WEDGE)), ('the smallest subnormal', TINY, (WEDGE, WEDGE)), ('ones', 1.0, (SAMPLE, SAMPLE))):
    same = [value] * 257
    rounds(f'tables of {name}', same, same, [MOST - 4, HALF + 4096], kinds)
    rounds(f'densities of {name}', falling, same, [MOST, HALF], (WEDGE, WEDGE))
    rounds(f'tables of {name}, layer 0 of one word', same, same, [MOST - 255], (SAMPLE, SAMPLE) if value == 1.0 else (TAIL, TAIL))
# where x is just the next edge it is not below it
rounds('symmetric x at the edge', [1.0] + [0.5] * 256, heights, [word_of(0.75)], (TAIL, TAIL))
rounds('symmetric x at the edge, negative', [1.0] + [0.5] * 256, heights, [word_of(0.25)], (TAIL, SAMPLE))
rounds('one-sided x at the edge', [1.0] + [u_of(0, word_of(0.625))] * 256, heights, [word_of(0.625)], (SAMPLE, TAIL))
rounds('zero at an edge of zero', [0.0] * 257, heights, [HALF + 1, 0], (WEDGE, WEDGE))
rounds('an infinite edge behind zeros', [0.0] * 256 + [INF], heights, [HALF + 255], (SAMPLE, SAMPLE))
rounds('a negative x far out', [-4.0] * 256 + [1.0], heights, [255, 0], (WEDGE, SAMPLE))


def encoded(call, name, numbers, lent, answer, after):
    words = [CODES[call], 1]
    for numbers_of in [numbers] + lent + [[]] * (4 - len(lent)) + [answer] + after + [[]] * (2 - len(after)):
        words += [len(numbers_of)] + numbers_of
    width = max(1, (max(words).bit_length() + 7) // 8)
    header = bytes([width]) + (width * len(words)).to_bytes(3, 'big')
    return header + b''.join(word.to_bytes(width, 'big') for word in words)


if __name__ == '__main__':
    if '--list' in sys.argv:
        for place, (call, name, *_) in enumerate(cases, 1):
            print(place, call, '-', name)
        sys.exit()
    files = [a for a in sys.argv[1:] if not a.startswith('-')]
    if len(files) != 1:
        sys.exit(__doc__)
    out = pathlib.Path(files[0])
    out.write_bytes(b''.join(encoded(*c) for c in cases))
    print(len(cases), 'records,', out.stat().st_size, 'bytes')
