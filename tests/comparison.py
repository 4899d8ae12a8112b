"""Facts that are compared, and those that do not hold."""


class Comparison:
    def __init__(self):
        self.facts = 0
        self.faults = []

    def fact(self, holds, words):
        self.facts += 1
        if not holds:
            self.faults.append(words)
