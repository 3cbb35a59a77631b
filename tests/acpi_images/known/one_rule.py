"""All sets that have the line of one rule written by hand, and those next to them that have all their lines."""

from .devices import DEVICES, WHOLE_DEVICES
from .further import FURTHER, WHOLE
from .iommus import IOMMUS, WHOLE_IOMMUS
from .memory_and_timers import MEMORY_AND_TIMERS, WHOLE_MEMORY_AND_TIMERS

ONE_RULE = (*FURTHER, *DEVICES, *MEMORY_AND_TIMERS, *IOMMUS)
ALL_LINES = (*WHOLE, *WHOLE_DEVICES, *WHOLE_MEMORY_AND_TIMERS, *WHOLE_IOMMUS)
