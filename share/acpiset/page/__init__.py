"""What `report --format html` draws. Each kind of picture has a module: the set, memory, interrupt numbers, the GIC, distances,
processors, the PPTT. They need Python 3.9 or later, the package `explain`, and no other one."""
