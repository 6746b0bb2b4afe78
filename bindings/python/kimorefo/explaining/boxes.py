"""Boxes of lattice points."""

from dataclasses import dataclass


@dataclass(frozen=True)
class Box:
    """A box of lattice points, its edges included; it is empty if an edge comes before the one that faces it."""

    left: int
    low: int
    right: int
    high: int

    @property
    def is_empty(self):
        """Whether it has no lattice point."""
        return self.left > self.right or self.low > self.high

    @property
    def is_point(self):
        """Whether it has one lattice point."""
        return (self.left, self.low) == (self.right, self.high)

    @property
    def middle(self):
        """Its middle, rounded down."""
        return (self.left + self.right) // 2, (self.low + self.high) // 2

    @property
    def corners(self):
        """Its four corners, counterclockwise."""
        return [(self.left, self.low), (self.right, self.low), (self.right, self.high), (self.left, self.high)]

    @property
    def half_planes(self):
        """It as half-planes."""
        return [(-1, 0, -self.left), (1, 0, self.right), (0, -1, -self.low), (0, 1, self.high)]

    def edge(self, name):
        """Both ends of its left, right, lower or upper edge."""
        lower_left, lower_right, upper_right, upper_left = self.corners
        return {
            "left": [lower_left, upper_left],
            "right": [lower_right, upper_right],
            "lower": [lower_left, lower_right],
            "upper": [upper_left, upper_right],
        }[name]

    def least(self, a, b):
        """The least a * x + b * y of its points x, y."""
        return min(a * self.left, a * self.right) + min(b * self.low, b * self.high)

    def has(self, p):
        """Whether a point lies in it."""
        return self.left <= p[0] <= self.right and self.low <= p[1] <= self.high

    def cut_to(self, other):
        """What it has in common with another one."""
        left, low = max(self.left, other.left), max(self.low, other.low)
        return Box(left, low, min(self.right, other.right), min(self.high, other.high))

    def halves(self):
        """Two boxes with its lattice points, of which it has two at least."""
        if self.right - self.left >= self.high - self.low:
            middle = (self.left + self.right) // 2
            return Box(self.left, self.low, middle, self.high), Box(middle + 1, self.low, self.right, self.high)
        middle = (self.low + self.high) // 2
        return Box(self.left, self.low, self.right, middle), Box(self.left, middle + 1, self.right, self.high)

    def beside(self, room):
        """The boxes of a room that it comes to in each direction, as wide or high as it is itself."""
        boxes = {
            "left": Box(room.left, self.low, self.left - 1, self.high),
            "right": Box(self.right + 1, self.low, room.right, self.high),
            "down": Box(self.left, room.low, self.right, self.low - 1),
            "up": Box(self.left, self.high + 1, self.right, room.high),
        }
        return {name: box.cut_to(room) for name, box in boxes.items()}

    def steps_to(self, other):
        """By how much it has to move along an axis to reach a box that lies beside it."""
        across = max(other.left - self.right, self.left - other.right)
        return max(across, other.low - self.high, self.low - other.high, 0)
