"""The rule of travel times, for the programs in Python that judge `lift` or stand beside it."""


def least_time(distance, speed, acceleration):
    """The least whole ms in which a car covers the distance from rest to rest."""
    def covers(time):
        if acceleration * time <= 2000 * speed:
            return 4_000_000 * distance <= acceleration * time * time
        return 1000 * acceleration * distance <= acceleration * speed * time - 1000 * speed * speed
    low, high = -1, 1
    while not covers(high):
        high *= 2
    while high - low > 1:
        middle = (low + high) // 2
        low, high = (low, middle) if covers(middle) else (middle, high)
    return high
