#!/usr/bin/env python3
"""The four pickers reckoned on their own, from docs/RULES.md and not from the code that they are used to test.

    tools/pick_places.py    prints what crates/pickers/stdout holds, and the numbers that crates/picker_tests expects
"""

# The places of the worked order, each with its amount, in the order in which they are put.
PUT = [(5, 30), (2, 10), (9, 30), (2, 40), (7, 10), (5, 30), (0, 0), (9, 5)]
# The turn markers of places 0 to 7; place 9 has none, so 255.
MARKERS = [3, 0, 2, 9, 9, 1, 0, 2]


def marker(place):
    return MARKERS[place] if place < len(MARKERS) else 255


# Of what waits, a list of (place, amount) in the order in which it was put: the index of what is taken next.
RULES = [
    ('oldest first', lambda held: 0),
    ('newest first', lambda held: len(held) - 1),
    ('lowest marker', lambda held: min(range(len(held)), key=lambda i: (marker(held[i][0]), held[i][0]))),
    ('largest amount', lambda held: min(range(len(held)), key=lambda i: (-held[i][1], held[i][0]))),
]


def taken_in_turn(rule):
    held, out = list(PUT), []
    while held:
        out.append(held.pop(rule(held))[0])
    return out


def mixed(rule):
    """Two puts and a take in turn, 60 times, of numbers that a linear congruence makes; then all that is left is taken.
    The sum weighs each place taken by when it was taken."""
    state, held, sum_, turn = 1, [], 0, 0

    def take():
        nonlocal sum_, turn
        turn += 1
        sum_ += turn * held.pop(rule(held))[0]
    for _ in range(60):
        for _ in range(2):
            state = (state * 75 + 74) % 65537
            held.append((state % 11, state // 11 % 7))
        take()
    while held:
        take()
    return sum_


for name, rule in RULES:
    print(name, *taken_in_turn(rule))
for name, rule in RULES:
    print('a long mixture,', name + ':', mixed(rule))
