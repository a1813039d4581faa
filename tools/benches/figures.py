"""What is said of a figure, and how a measurement ends that cannot be made."""


class Failed(Exception):
    """Why nothing was measured, in one line."""


class Bounds:
    """Whether each bound that was held to something is met."""

    def __init__(self):
        self.met = True

    def most(self, found, bound, places=2):
        """Tells a figure that may not be greater than a bound."""
        return self.told(found, bound, found <= bound, "at most", places)

    def least(self, found, bound, places=1):
        """Tells a figure that may not be less than a bound."""
        return self.told(found, bound, found >= bound, "at least", places)

    def told(self, found, bound, met, word, places):
        self.met = self.met and met
        return f"{found:.{places}f}, wanted {word} {bound} {'met' if met else 'NOT MET'}"
