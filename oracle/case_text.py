"""What the scripts of the sheet and of the board share: a refusal on its way out, and lists written short."""


class Refused(Exception):
    def __init__(self, number, place):
        super().__init__(number, place)
        self.number, self.place = number, place


class Front:
    """The bytes of a sheet, with the place of the next one."""

    def __init__(self, data):
        self.data, self.at = data, 0

    def whole(self, size):
        """So many bytes are there, or the sheet is short."""
        if len(self.data) - self.at < size:
            raise Refused(1, len(self.data))

    def number(self, size):
        self.at += size
        return int.from_bytes(self.data[self.at - size:self.at], 'little')


def runs(entries):
    """The entries, of which more than three of a kind in a row are written once."""
    told = []
    for entry in entries:
        if told and told[-1][1] == entry:
            told[-1][0] += 1
        else:
            told.append([1, entry])
    return [word for times, entry in told for word in ([f'{times}x{entry}'] if times > 3 else [entry] * times)]
