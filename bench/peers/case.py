"""A case as numbers, for programs that know nothing of `lift`: what `lift solve` reads, a building of version
1 to 3 and a snapshot of version 1 or 2. Moments are counted from that of the snapshot. The text has to be one
that `lift solve` takes."""
import os
import sys
from dataclasses import dataclass, field

sys.path.append(os.path.join(os.path.dirname(os.path.abspath(__file__)), '../../tests'))
from travel import least_time  # noqa: E402


@dataclass
class Car:
    """A car with its state: from where and when its tour is timed, and the floors where it may stop first."""
    capacity: int
    opening: int
    closing: int
    boarding: int
    alighting: int
    serves: set
    start: int = 0
    free: int = 0
    first: set = field(default_factory=set)
    # It has to make a first stop, at which nobody need board or get off.
    is_under_way: bool = False


@dataclass
class Rider:
    """A call, or a group aboard the car `rides_in`: then `came` is when it boarded, and it has no origin."""
    identity: int
    origin: int
    destination: int
    persons: int
    came: int
    cars: set
    rides_in: int = None

    @property
    def goes_up(self):
        return self.origin < self.destination

    def is_before(self, other):
        """The call has to board before the other one, if both go with one car."""
        return (self.origin == other.origin and self.goes_up == other.goes_up
                and (self.came, self.identity) < (other.came, other.identity))


class Case:
    """Calls and groups aboard are riders, the calls first."""

    def __init__(self, text):
        self.patience, self.times, self.cars, self.groups, self.calls, self.place = (0, 0), [], [], [], [], {}
        for line in text:
            words = line.split('#')[0].split()
            if words and words[0] not in ('building', 'snapshot', 'end'):
                getattr(self, 'read_' + words[0])(words[1:])
        self.riders = self.calls + self.groups

    def read_speed(self, words):
        self.speed = int(words[0])

    def read_accel(self, words):
        self.acceleration = int(words[0])

    def read_weights(self, words):
        self.weights = tuple(map(int, words))

    def read_patience(self, words):
        self.patience = tuple(map(int, words))

    def read_floors(self, words):
        self.heights = list(map(int, words))

    def read_times(self, words):
        self.times.append(list(map(int, words)))

    def read_now(self, words):
        self.now = int(words[0])
        self.travel = self.times or [[least_time(abs(one - other), self.speed, self.acceleration)
                                      for other in self.heights] for one in self.heights]

    def read_car(self, words):
        if words[1] in ('idle', 'coming', 'moving'):
            self.read_state(self.cars[self.place[words[0]]], words[1], int(words[2]), words[3:])
            return
        self.place[words[0]] = len(self.cars)
        serves = range(len(self.heights)) if words[6] == 'all' else map(int, words[6:])
        self.cars.append(Car(*map(int, words[1:6]), set(serves)))

    def read_state(self, car, kind, floor, words):
        car.start, car.free, car.is_under_way = floor, int(words[-1]) - self.now, kind != 'idle'
        car.first = {'idle': car.serves, 'coming': {floor}}.get(kind)
        if kind == 'moving':
            car.first = {there for there in car.serves if self.is_open(car, words[0] == 'up', there)}

    def is_open(self, car, goes_up, floor):
        """A moving car may still stop first at the floor: it is ahead, not reached yet, far enough."""
        if floor == car.start or (floor > car.start) != goes_up:
            return False
        if car.free + self.travel[car.start][floor] < 0:
            return False
        distance, time = abs(self.heights[floor] - self.heights[car.start]), -car.free
        if self.acceleration * time <= 1000 * self.speed:
            return self.acceleration * time * time <= 1_000_000 * distance
        return self.speed * time <= 1000 * distance

    def read_aboard(self, words):
        identity, destination, persons, boarded = map(int, words[1:])
        car = self.place[words[0]]
        self.groups.append(Rider(identity, -1, destination, persons, boarded - self.now, {car}, car))

    def read_call(self, words):
        identity, origin, destination, persons, released = map(int, words[:5])
        cars = {at for at, car in enumerate(self.cars)
                if persons <= car.capacity and {origin, destination} <= car.serves
                and (words[5] == 'any' or at == self.place[words[5]])}
        self.calls.append(Rider(identity, origin, destination, persons, released - self.now, cars))
