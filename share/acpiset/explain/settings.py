"""The counts and settings that check was given, and the arguments that give them."""

import argparse
import re

DEFAULT_INPUTS = 24
COUNT = re.compile("(?:0x)?([0-9A-Fa-f]{1,8})=([0-9]+)")


def address_of(text):
    if not re.fullmatch("(0x)?[0-9A-Fa-f]{1,16}", text):
        raise argparse.ArgumentTypeError("expected 1 to 16 hex digits")
    return int(text, 16)


def inputs_of(text):
    if not re.fullmatch("[0-9]{1,3}", text) or not 1 <= int(text) <= 256:
        raise argparse.ArgumentTypeError("expected a number from 1 to 256")
    return int(text)


def add_options(parser):
    """The options of check that other commands have too."""
    parser.add_argument("--rsdp", type=address_of)
    parser.add_argument("--default-inputs", type=inputs_of)
    parser.add_argument("--hotplug", choices=("counted", "apart"))
    parser.add_argument("--processors", choices=("enabled", "usable"))


class Settings:
    """How many inputs I/O APICs have, and the words by which acpiset is told so."""

    def __init__(self, default_inputs, counts, hotplug, processors):
        self.default_inputs, self.hotplug, self.processors = default_inputs, hotplug, processors
        self.counts = {}
        for address, count in counts:
            self.counts.setdefault(int(address, 16), count)

    def inputs(self, address):
        return self.counts.get(address, self.default_inputs or DEFAULT_INPUTS)

    def words(self):
        options = {"--default-inputs": self.default_inputs, "--hotplug": self.hotplug, "--processors": self.processors}
        given = [word for name, value in options.items() if value is not None for word in (name, str(value))]
        return given + [f"{address:x}={count}" for address, count in self.counts.items()]
