"""A plain judge of a day's log with certificates: it goes through the lines that are due one by one, with lists and dictionaries alone.

It knows the rules of a day (`docs/definitions.md`: Tour, Advance, Day) by itself, and asks `lift check` about each answer with its
certificate. `judge` says what `lift audit` has to answer, for an input whose building, opening, header and rows are right.
"""
import csv
import re
import subprocess

from travel import least_time


class World:
    """A snapshot and the tours that hold in it. A rider is a dictionary: an open call, or a group aboard a car."""

    def __init__(self, lines):
        self.version, self.building, self.cars, self.states, self.times = 1, [], [], {}, []
        self.speed = self.acceleration = self.now = 0
        self.heights, self.calls, self.groups = [], [], []
        for words in filter(None, (line.split('#')[0].split() for line in lines)):
            self.take(words)
        if not self.times:
            self.times = [[least_time(abs(a - b), self.speed, self.acceleration) for b in self.heights] for a in self.heights]
        self.tours = {car['id']: self.opening_tour(car) for car in self.cars}

    def take(self, words):
        first, numbers = words[0], words[1:]
        if first == 'building':
            self.building_version = int(numbers[0])
        elif first == 'snapshot':
            self.version = int(numbers[0])
        elif first == 'speed':
            self.speed = int(numbers[0])
        elif first == 'accel':
            self.acceleration = int(numbers[0])
        elif first == 'floors':
            self.heights = list(map(int, numbers))
        elif first == 'times':
            self.times.append(list(map(int, numbers)))
        elif first == 'now':
            self.now = int(numbers[0])
        elif first == 'car' and numbers[1] in ('idle', 'coming', 'moving'):
            self.states[int(numbers[0])] = [numbers[1], *(int(word) if word.isdigit() else word for word in numbers[2:])]
        elif first == 'car':
            served = range(len(self.heights)) if numbers[6] == 'all' else map(int, numbers[6:])
            names = ('id', 'capacity', 'opening', 'closing', 'boarding', 'alighting')
            self.cars.append({**dict(zip(names, map(int, numbers))), 'floors': set(served)})

    def is_open(self, car, state, now, floor):
        """Whether a moving car can still stop at the floor."""
        _, start, way, left = state
        if floor not in car['floors'] or floor == start or (floor > start) != (way == 'up'):
            return False
        distance, time = abs(self.heights[floor] - self.heights[start]), now - left
        if self.acceleration * time <= 1000 * self.speed:
            can_stop = self.acceleration * time * time <= 1_000_000 * distance
        else:
            can_stop = self.speed * time <= 1000 * distance
        return can_stop and left + self.times[start][floor] >= now

    def opening_tour(self, car):
        state = self.states[car['id']]
        if state[0] == 'coming':
            return [(state[1], [])]
        if state[0] == 'moving':
            floors = [floor for floor in range(len(self.heights)) if self.is_open(car, state, self.now, floor)]
            return [(min(floors, key=lambda floor: abs(floor - state[1])), [])]
        return []

    def runs(self, car):
        """The car's tour stop by stop: arrival, moment of open doors, departure, floor, who gets off and who boards, all in the
        order in which they are told."""
        state = self.states[car['id']]
        riders = [dict(group) for group in self.groups if group['car'] == car['id']]
        floor, left, has_begun = state[1], state[3] if state[0] == 'moving' else state[2], False
        for to, boards in self.tours[car['id']]:
            arrives = left if state[0] == 'coming' and not has_begun else left + self.times[floor][to]
            opened = arrives + car['opening']
            off = [rider for rider in riders if rider['destination'] == to]
            calls = sorted((call for call in self.calls if call['id'] in boards), key=lambda call: call['id'])
            riders = [rider for rider in riders if rider['destination'] != to]
            riders += [{**call, 'boarded': opened, 'car': car['id']} for call in calls]
            left = (opened + car['closing'] + car['alighting'] * sum(rider['persons'] for rider in off)
                    + car['boarding'] * sum(call['persons'] for call in calls))
            floor, has_begun = to, True
            yield arrives, opened, left, to, off, calls, list(riders)

    def events(self, time):
        """The lines of what happens until then, or to the end of all tours."""
        for car in self.cars:
            for arrives, opened, _, _, off, calls, _ in self.runs(car):
                if time is not None and arrives > time:
                    break
                yield from ('deliver %d %d %d' % (rider['id'], car['id'], opened) for rider in off)
                yield from ('board %d %d %d' % (call['id'], car['id'], opened) for call in calls)

    def advance(self, time):
        """Goes on to a moment."""
        groups = {group['id']: group for group in self.groups}
        new_groups, states, tours, boarded = [], {}, {}, set()
        for car in self.cars:
            state, runs = self.states[car['id']], list(self.runs(car))
            done = [run for run in runs if run[0] <= time]
            rest, ahead = self.tours[car['id']][len(done):], runs[len(done):]
            tours[car['id']] = rest
            riders = done[-1][6] if done else [group for group in self.groups if group['car'] == car['id']]
            for run in done:
                boarded.update(call['id'] for call in run[5])
                for rider in run[4]:
                    groups.pop(rider['id'], None)
            new_groups += [rider for rider in riders if rider['id'] in boarded]
            states[car['id']] = self.state_then(car, state, time, done, rest, ahead, riders)
        self.groups = [group for group in self.groups if group['id'] in groups] + new_groups
        self.calls = [call for call in self.calls if call['id'] not in boarded]
        self.states, self.tours, self.now = states, tours, time

    def state_then(self, car, state, time, done, rest, ahead, riders):
        def may_choose(moving):
            floors = [rest[0][0]] + [rider['destination'] for rider in riders]
            return all(self.is_open(car, moving, time, floor) for floor in floors)
        if not done and state[0] == 'coming':
            return state
        if not done and state[0] == 'moving':
            return state if not rest or may_choose(state) else ['coming', rest[0][0], ahead[0][0]]
        floor, left = (done[-1][3], done[-1][2]) if done else (state[1], state[2])
        if time <= left:
            return ['idle', floor, left]
        if not rest:
            return ['idle', floor, time]
        moving = ['moving', floor, 'up' if floor < rest[0][0] else 'down', left]
        if self.version == 2 and may_choose(moving):
            return moving
        return ['coming', rest[0][0], ahead[0][0]]

    def fault(self, number, row):
        """The code with which a row is refused, or the call that it brings. A row that is taken has gone on to its time."""
        if row is None or not (row[0] <= 1_000_000_000 and row[1] != row[2] and max(row[1:3]) < len(self.heights) and 1 <= row[3] <= 8):
            return 41
        if row[0] < self.now:
            return 42
        call = {'id': number, 'origin': row[1], 'destination': row[2], 'persons': row[3], 'released': row[0]}
        waiting = {call['id'] for call in self.calls}
        for car in self.cars:
            for run in self.runs(car):
                if run[0] <= row[0]:
                    waiting -= {boards['id'] for boards in run[5]}
        if len(waiting) >= (64 if self.building_version == 1 else 128):
            return 43
        if not any(car['capacity'] >= row[3] and {row[1], row[2]} <= car['floors'] for car in self.cars):
            return 44
        return call

    def text(self):
        """The lines of the snapshot."""
        lines = ['snapshot %d' % self.version, 'now %d' % self.now]
        lines += ['car %d %s' % (car['id'], ' '.join(map(str, self.states[car['id']]))) for car in self.cars]
        lines += ['aboard %(car)d %(id)d %(destination)d %(persons)d %(boarded)d' % group for group in self.groups]
        lines += ['call %(id)d %(origin)d %(destination)d %(persons)d %(released)d any' % call for call in self.calls]
        return lines + ['end']


def row_of(line):
    """The four numbers of a row, or None."""
    if len(line) > 4096:
        return None
    fields = [field.strip(' ') for field in next(csv.reader([line], strict=False), [])]
    if len(fields) != 4 or not all(re.fullmatch('[0-9]+', field) for field in fields):
        return None
    return list(map(int, fields))


class Differs(Exception):
    """A line that is not the one that is due."""


class Found(Exception):
    """What is wrong with a section, as it is answered."""


class Log:
    """The lines of a log, from one of the input's on."""

    def __init__(self, lines, first):
        self.lines, self.at, self.first = lines, 0, first

    def next_words(self):
        while self.at < len(self.lines):
            self.at += 1
            words = self.lines[self.at - 1].split('#')[0].split()
            if words:
                return words
        return None

    def take(self, due):
        words = self.next_words()
        if words is None:
            raise Differs(self.first + len(self.lines))
        if words != due.split():
            raise Differs(self.first + self.at - 1)

    def ends(self):
        if self.next_words() is not None:
            raise Differs(self.first + self.at - 1)


def check(lift, lines):
    told = subprocess.run([lift, 'check'], input='\n'.join(lines) + '\n', capture_output=True, text=True, check=False)
    return told.stdout.splitlines()


def take_proof(lift, building, world, log, number):
    """Takes an answer and its certificate, and gives the tours."""
    head = building + world.text()
    rest = log.lines[log.at:]
    told = check(lift, head + rest)
    words = told[0].split()
    if words[:2] == ['refused', 'line']:
        bad = int(words[2]) - len(head)
        whole = check(lift, head + rest[:bad - 1]) if words[4] == '8' else told
        if whole[0].startswith('refused'):
            raise Found('refused line %d code %s' % (log.first + log.at + bad - 1, words[4]), 5)
        told, rest = whole, rest[:bad - 1]
    if told[0].startswith('no'):
        raise Found('\n'.join(['no 62 %d' % number] + told), 4)
    log.at += len(rest)
    tours, car = {}, None
    for words in filter(None, (line.split('#')[0].split() for line in rest)):
        if words[0] == 'certificate':
            break
        if words[0] == 'tour':
            car = tours.setdefault(int(words[1]), [])
        elif words[0] == 'stop':
            car.append((int(words[1]), list(map(int, words[2:]))))
    cost, bound = map(int, told[0].split()[1:])
    return tours, bound < cost


def judge(lift, text):
    """What `lift audit` answers, and its status."""
    lines = text.split('\n')
    if lines[-1] == '':
        lines.pop()
    header = lines.index('time,origin,destination,persons')
    try:
        begin = lines.index('day 1', header)
    except ValueError:
        return 'no 61 %d' % (len(lines) + 1), 4
    world = World(lines[:header])
    building = lines[:next(at for at, line in enumerate(lines) if line.split('#')[0].split() == ['end']) + 1]
    log, accepted, refused, unsolved = Log(lines[begin + 1:], begin + 2), 0, 0, 0
    try:
        for number, line in enumerate((line for line in lines[header + 1:begin] if line), 1):
            row = row_of(line)
            call = world.fault(number, row)
            if isinstance(call, int):
                log.take('row %d refused %d' % (number, call))
                refused += 1
                continue
            log.take('row %d accepted' % number)
            for event in list(world.events(row[0])):
                log.take(event)
            world.advance(row[0])
            world.calls.append(call)
            world.tours, is_open = take_proof(lift, building, world, log, number)
            accepted, unsolved = accepted + 1, unsolved + is_open
        for event in list(world.events(None)):
            log.take(event)
        # Every call that was accepted is delivered.
        log.take('total %d %d %d' % (accepted, refused, accepted))
        log.take('end')
        log.ends()
    except Differs as line:
        return 'no 61 %d' % line.args[0], 4
    except Found as found:
        return found.args
    return 'yes %d %d' % (accepted, unsolved), 0
