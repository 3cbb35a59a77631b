"""Numbers of the tables as texts."""

UNITS = (("EiB", 60), ("PiB", 50), ("TiB", 40), ("GiB", 30), ("MiB", 20), ("KiB", 10))
TIMES = {2: "twice"}


def size_of(count: int) -> str:
    """A number of bytes in the largest unit that it has one of. One that is rounded says so."""
    for unit, bits in UNITS:
        if count >= 1 << bits:
            rounded = f"{count / (1 << bits):.4g}"
            is_exact = float(rounded) * (1 << bits) == count
            return f"{rounded if is_exact else f'about {rounded}'} {unit}"
    return counted(count, "byte")


def addresses(first: int, end: int) -> str:
    """The first and the last address of a range that ends before `end`."""
    return f"{first:#x} to {end - 1:#x}"


def numbers(first: int, end: int) -> str:
    return f"{first} to {end - 1}" if end - first > 1 else f"{first}"


def counted(count: int, one: str, many: str = "") -> str:
    return f"{count:,} {one if count == 1 else many or one + 's'}"


def times(count: int) -> str:
    return TIMES.get(count, f"{count} times")


def listed(words, most: int = 12) -> str:
    """Some words in a row, and how many more there are."""
    words = list(map(str, words))
    more = len(words) - most
    return ", ".join(words[:most]) + (f" and {more:,} more" if more > 0 else "")
