"""Tables: how many words were read right, read wrong, and not read."""


def score(words, read):
    """How many words were read right, read wrong, and not read. A line with a word of 0 has none, and isn't counted."""
    right, none = (read == words) & (words != 0), (read == 0) & (words != 0)
    return [int(right.sum()), int(((words != 0) & ~right & ~none).sum()), int(none.sum())]


def said_of_none(words, read):
    """Of how many lines without a word one is said."""
    return [int(((words == 0) & (read != 0)).sum())]


def print_head(*names):
    print("\n| %s |\n%s|" % (" | ".join(names), "|---" * len(names)), flush=True)


def print_row(name, scores):
    print("| %s |" % " | ".join([name, *("/".join(map(str, counts)) for counts in scores)]), flush=True)


class Totals:
    """Sums of the scores of rows, by the names of the sums."""

    def __init__(self):
        self.sums = {}

    def add(self, name, scores):
        before = self.sums.get(name, [[0] * len(counts) for counts in scores])
        self.sums[name] = [[sum(pair) for pair in zip(*counts)] for counts in zip(before, scores)]

    def print(self):
        for name, scores in self.sums.items():
            print_row(name, scores)
