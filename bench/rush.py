#!/usr/bin/env python3
"""rush.py [make FOLDER | states [FOLDER] | days] [NUMBERS]: searches at the busiest moments of days, and whole heavy days.

    make     writes the states of such moments to FOLDER, as inputs of `lift solve`: KIND-NUMBER-ROW.txt
    states   solves them, or those that are in FOLDER, one by one with `lift solve --brief --progress`: one worker, the
             default limits, at most LIMIT seconds of the clock each (60 by default)
    days     runs `lift day --workers 2` on the heavy days, within the default limits and for at most DAY_LIMIT seconds
             of the clock each (600 by default)

Without a word come the states and then the days. NUMBERS is how many days there are of each kind (4 by default); each
is drawn from its kind and its number:

    heavy    20 floors, 8 cars, 300 calls, one each 1.8 s in the mean; half of them go up from the hall, the others
             between any two floors
    middle   16 floors, 6 cars, 300 calls, one each 2.0 s in the mean, which go as those of heavy days
    lunch    20 floors, 8 cars, 600 calls, one each 0.95 s in the mean, which go as those of `examples/study`

The states are those of days that are run with `--rounds 1`: so they are there soon, and do not depend on what a longer
search does. On one round they do: to compare programs, keep what `make` wrote. Of each day up to five states of each
class are taken, evenly spaced: of heavy and middle days those with 15 to 25 open calls, of lunch those with 21 to 30
and with 31 to 40.

Of a state, `aboard` are the persons in the cars. Seconds are those of the processor. Rounds, visits, cost and bound are
those told last; `open` is how many nodes were open at most when a line was told. The gap is what lies between cost and
bound, in thousandths of a percent of the cost, rounded up. A search that the clock stopped ends with `-`, and counts
with the seconds that it had. LIFT is the program, `crates/lift/out/lift` by default.
"""
import math
import os
import re
import resource
import shutil
import statistics
import subprocess
import sys
import tempfile
import time
from collections import namedtuple

TOP = os.path.normpath(os.path.join(os.path.dirname(os.path.abspath(__file__)), '..'))
LIFT = os.environ.get('LIFT', os.path.join(TOP, 'crates/lift/out/lift'))
LIMIT = float(os.environ.get('LIMIT', 60))
DAY_LIMIT = float(os.environ.get('DAY_LIMIT', 600))
# How many states are taken of each day and class.
SAMPLE = 5

OPENING = """building 1
speed {speed}
accel 1000
weights 1 1
floors {heights}
{cars}
end
snapshot 1
now {now}
{states}
end
time,origin,destination,persons
"""

# `classes` are the least and the greatest number of open calls of each class, `every` the mean of the gaps in ms.
Kind = namedtuple('Kind', 'floors height speed cars car now every rows way classes')


class Draws:
    """Numbers from a number: a linear congruential generator of 64 bits, of which the upper 32 are given."""

    def __init__(self, number):
        self.state = number
        self.pick(1)

    def upper(self):
        self.state = (6364136223846793005 * self.state + 1442695040888963407) % 2**64
        return self.state >> 32

    def pick(self, below):
        return self.upper() % below

    def gap(self, mean):
        """A gap of ms with this mean, such as there are between calls that come at random."""
        return int(-mean * math.log((self.upper() + 1) / 2**32)) + 1


def other_floor(draws, floors, floor):
    other = draws.pick(floors - 1)
    return other + (other >= floor)


def peak_way(draws, floors):
    """Origin, destination and persons of a peak's call: half of them go up from the hall."""
    origin = 0 if draws.pick(2) == 0 else draws.pick(floors)
    return origin, other_floor(draws, floors, origin), 1


def lunch_way(draws, floors):
    """Those of a call at lunch, as `examples/study/make` draws them."""
    kind = draws.pick(100)
    upper = 1 + draws.pick(floors - 1)
    if kind < 45:
        ways = upper, 0
    elif kind < 85:
        ways = 0, upper
    else:
        other = 1 + draws.pick(floors - 2)
        ways = upper, other + (other >= upper)
    return *ways, 1 + (draws.pick(4) == 0) + (draws.pick(12) == 0)


KINDS = {
    'heavy': Kind(20, 4000, 2000, 8, '8 1000 1000 500 500 all', 0, 1800, 300, peak_way, [(15, 25)]),
    'middle': Kind(16, 4000, 2000, 6, '8 1000 1000 500 500 all', 0, 2000, 300, peak_way, [(15, 25)]),
    'lunch': Kind(20, 3800, 2500, 8, '10 900 1100 600 500 all', 43_200_000, 950, 600, lunch_way, [(21, 30), (31, 40)]),
}


def day_of(name, number):
    """The text of a day."""
    kind, draws = KINDS[name], Draws(1000 * (1 + list(KINDS).index(name)) + number)
    cars = range(1, kind.cars + 1)
    lines = [OPENING.format(
        speed=kind.speed,
        heights=' '.join(str(kind.height * floor) for floor in range(kind.floors)),
        cars='\n'.join('car %d %s' % (car, kind.car) for car in cars),
        states='\n'.join('car %d idle 0 %d' % (car, kind.now) for car in cars),
        now=kind.now)]
    moment = kind.now
    for _ in range(kind.rows):
        moment += draws.gap(kind.every)
        lines.append('%d,%d,%d,%d\n' % (moment, *kind.way(draws, kind.floors)))
    return ''.join(lines)


def make(folder, numbers):
    """Writes the states of all days to the folder."""
    os.makedirs(folder, exist_ok=True)
    for kind in KINDS:
        for number in range(1, numbers + 1):
            make_states(kind, number, folder)


def make_states(kind, number, folder):
    with tempfile.TemporaryDirectory() as work:
        day, log = os.path.join(work, 'day'), os.path.join(work, 'log')
        with open(day, 'w', encoding='ascii') as file:
            file.write(day_of(kind, number))
        with open(day, encoding='ascii') as source, open(log, 'w', encoding='ascii') as into:
            status = subprocess.run([LIFT, 'day', '--rounds', '1'], stdin=source, stdout=into, check=False).returncode
        if status not in (0, 3):
            sys.exit('rush: a day ended with status %d' % status)
        for least, most in KINDS[kind].classes:
            states = os.path.join(work, str(least))
            subprocess.run([os.path.join(TOP, 'tests/day_states'), day, log, states, str(least), str(most)], check=True)
            for name in evenly(sorted(os.listdir(states))):
                shutil.copy(os.path.join(states, name), os.path.join(folder, '%s-%d-%s' % (kind, number, name)))


def evenly(names):
    count = min(SAMPLE, len(names))
    return [names[(2 * at + 1) * len(names) // (2 * count)] for at in range(count)]


def run(words, source, into, limit):
    """Runs the program, at most until the limit: the seconds of the clock and of the processor that it took."""
    used, start = resource.getrusage(resource.RUSAGE_CHILDREN).ru_utime, time.monotonic()
    with open(source, encoding='ascii') as given, open(into, 'w', encoding='ascii') as out, \
            open(into + '.told', 'w', encoding='ascii') as told:
        try:
            subprocess.run([LIFT, *words], stdin=given, stdout=out, stderr=told, timeout=limit, check=False)
        except subprocess.TimeoutExpired:
            pass
    return time.monotonic() - start, resource.getrusage(resource.RUSAGE_CHILDREN).ru_utime - used


def words_of(path):
    with open(path, encoding='ascii') as file:
        return [line.split() for line in file]


def class_of(kind, calls):
    """The class that a state is one of, as it is printed."""
    for least, most in KINDS[kind].classes:
        if least <= calls <= most:
            return '%s %d-%d' % (kind, least, most)
    return kind + ', others'


def solve_states(folder):
    """Solves the states of the folder, with a line for each and one for each class."""
    found = []
    for name in os.listdir(folder):
        parts = re.fullmatch('([a-z]+)-([0-9]+)-([0-9]+).txt', name)
        if parts and parts[1] in KINDS:
            found.append((list(KINDS).index(parts[1]), int(parts[2]), int(parts[3]), parts[1], name))
    print('kind number row, calls aboard | seconds rounds visits open | cost bound gap | ends', flush=True)
    classes = {}
    with tempfile.TemporaryDirectory() as work:
        for _, number, row, kind, name in sorted(found):
            calls, line, took, is_solved = solve(os.path.join(folder, name), os.path.join(work, 'answer'))
            print('%s %d %d, %s' % (kind, number, row, line), flush=True)
            classes.setdefault(class_of(kind, calls), []).append((took, is_solved))
    for name, runs in classes.items():
        took = sorted(seconds for seconds, _ in runs)
        print('%s: %d of %d solved; seconds: median %.2f, mean %.2f, 95th percentile %.2f' % (
            name, sum(is_solved for _, is_solved in runs), len(runs), statistics.median(took), statistics.fmean(took),
            took[math.ceil(0.95 * len(took)) - 1]), flush=True)


def solve(case, into):
    """Solves a case: its open calls, what is printed of it, the seconds and whether it was solved."""
    _, took = run(['solve', '--brief', '--progress'], case, into, LIMIT)
    state, answer = words_of(case), words_of(into)
    calls = sum(words[:1] == ['call'] for words in state)
    aboard = sum(int(words[4]) for words in state if words[:1] == ['aboard'])
    # A line that is told has six names, each with a number; the last one may be cut off.
    told = [dict(zip(words[::2], words[1::2])) for words in words_of(into + '.told') if len(words) == 12]
    searched = '- - - | - - -'
    if told:
        last = told[-1]
        cost, bound = int(last['cost']), int(last['bound'])
        searched = '%s %s %d | %d %d %d' % (
            last['rounds'], last['visits'], max(int(line['open']) for line in told),
            cost, bound, math.ceil(100_000 * (cost - bound) / cost))
    ends = ' '.join(answer[-1][1:]) if answer and answer[-1][0] == '#' else '-'
    return calls, '%d %d | %.2f %s | %s' % (calls, aboard, took, searched, ends), took, ends == 'solved'


def run_days(numbers):
    """Runs the heavy days, with a line for each."""
    print('kind number | rows answered, solved | seconds of clock, of processor | rows a second | ends', flush=True)
    with tempfile.TemporaryDirectory() as work:
        day, log = os.path.join(work, 'day'), os.path.join(work, 'log')
        for number in range(1, numbers + 1):
            with open(day, 'w', encoding='ascii') as file:
                file.write(day_of('heavy', number))
            took, processor = run(['day', '--workers', '2'], day, log, DAY_LIMIT)
            lines = words_of(log)
            costs, bounds = ([words[1] for words in lines if words[:1] == [name]] for name in ('cost', 'bound'))
            print('heavy %d | %d %d | %.1f %.1f | %.2f | %s' % (
                number, len(bounds), sum(map(str.__eq__, costs, bounds)), took, processor, len(bounds) / took,
                ' '.join(lines[-1][1:]) if lines and lines[-1][0] == '#' else '-'), flush=True)


def main():
    words = sys.argv[1:]
    part = words.pop(0) if words and words[0] in ('make', 'states', 'days') else None
    numbers = int(words.pop()) if words and words[-1].isdigit() else 4
    folder = words.pop(0) if words and part in ('make', 'states') else None
    if words or (part == 'make' and folder is None):
        sys.exit('usage: rush [make FOLDER | states [FOLDER] | days] [NUMBERS]')
    if not os.access(LIFT, os.X_OK):
        sys.exit('rush: there is no program %s: `rt run` makes it, or LIFT names another one' % LIFT)
    if part == 'make':
        make(folder, numbers)
    elif part == 'states' and folder:
        solve_states(folder)
    elif part != 'days':
        with tempfile.TemporaryDirectory() as work:
            make(work, numbers)
            solve_states(work)
    if part in ('days', None):
        run_days(numbers)


main()
