"""The table: a row for each peer."""

HEADS = ("Log", "one at a time", "ratio", "64 at a time", "ratio", "bytes a line", "verified", "ratio", "MB")


def rate(count, seconds):
    return "{:,.0f}".format(count / seconds)


class Row:
    def __init__(self, name):
        self.cells, self.memory = [name], None

    def appended(self, count, seconds, least):
        """Lines a second, and how many times the unavoidable work they took."""
        self.cells += [rate(count, seconds), "%.1f" % (seconds / least)]

    def kept(self, count, size):
        self.cells.append("%.0f" % (size / count))

    def verified(self, count, seconds, least):
        self.cells += ["", ""] if seconds is None else [rate(count, seconds), "%.1f" % (seconds / least)]

    def text(self):
        cells = [*self.cells, "" if self.memory is None else "%.1f" % self.memory]
        return "|" + "|".join(cells) + "|"


def print_table(rows):
    print("|" + "|".join(HEADS) + "|")
    print("|---" * len(HEADS) + "|")
    for row in rows:
        print(row.text())
