"""Random choices."""


class Draw:
    """Choices by one random generator."""

    def __init__(self, random):
        self.random, self.care = random, 1

    def chance(self, part):
        return self.random.random() < part

    def slips(self, part):
        """Something goes wrong in so many of all cases; in more of them where care is less, so that
        there are requests with several things wrong."""
        return self.chance(min(part / self.care, 0.6))

    def pick(self, values):
        return self.random.choice(values)

    def other_byte(self, text):
        """A text with one byte replaced, put in or taken out."""
        place = self.number(0, len(text))
        put = bytes([self.number(0, 255)]) if self.chance(0.8) else b""
        return text[:place] + put + text[place + self.number(0, 1) :]

    def number(self, least, greatest):
        return self.random.randint(least, greatest)
