"""Fields of a text, read one after the other."""


class Fields:
    """Reads one field after the other, each whole before it is tested. A text that ends within one is a fault at its length."""

    # What is raised then, of a place.
    fault = ValueError

    def __init__(self, text):
        self.text, self.at = text, 0

    def take(self, length):
        if length > len(self.text) - self.at:
            raise self.fault(len(self.text))
        self.at += length
        return self.text[self.at - length : self.at]

    def number(self, length):
        return int.from_bytes(self.take(length), "little")
