"""The examples, compiled and run."""

import shutil

from acpi_images.program import IMAGES, firmware_text
from acpi_images.table_set import TableSet, complete_table, fadt_of
from acpi_images.tables import changed
from acpi_images.text import read
from builds import HEADER, TOP, counted, run


def tables_of(text, rsdp):
    """The tables of a set by their signatures. A signature that is repeated has its slot appended."""
    image = read(text)
    tables = TableSet(image, rsdp)
    found = {}
    for slot, address in tables.slots.items():
        data = complete_table(image, address).data
        name = data[:4].decode()
        found[name if name not in found else f"{name}{slot}"] = data
    facs = fadt_of(tables).facs
    if facs:
        found["FACS"] = image.present(facs, 64).data
    return found


def as_qemu_has_it(data):
    """A FADT without the addresses of the FACS and the DSDT, and with a new checksum."""
    blank = {at: 0 for at in (*range(36, 44), *range(132, 148)) if at < len(data)}
    return changed(data, blank, (9, len(data)))


def qemu_tables(cases, path, environment, scratch):
    """The tables of each image of firmware in files; and files with a mistake, or without a table."""
    for name, rsdp in IMAGES.items():
        found = tables_of(firmware_text(name), int(rsdp, 16))
        found["FACP"] = as_qemu_has_it(found["FACP"])
        folder = scratch / name
        folder.mkdir(exist_ok=True)
        for signature, data in found.items():
            (folder / signature).write_bytes(data)
        right = ("no 10 Overlap 0x90 0xb8 0x100000000\n", 1) if name == "sb-pc-nvdimm-numa" else ("yes\n", 0)
        told = run([path, *(folder / signature for signature in found)], env=environment)
        cases.count(f"qemu_tables, {name}", "" if told == right else f"{told}, not {right}")

    folder = scratch / "sb-q35-default"
    listed = ["FACP", "APIC", "FACS", "HPET"]
    files_named = [folder / signature for signature in listed]
    # slots are 0, 1 and 2; each of these tables takes one page from 0x100000 on
    data = (folder / "HPET").read_bytes()
    (folder / "HPET").write_bytes(changed(data, {9: data[9] ^ 1}))
    for name, words, right in (
        ("a checksum", files_named, ("no 3 TableSum 0x2 0x103000 0x0\n", 1)),
        ("no FACS", files_named[:2], ("no 5 NoFacs 0x0 0x0 0x0\n", 1)),
        ("no FADT", files_named[1:3], ("no 4 NoFadt 0x0 0x0 0x0\n", 1)),
        ("no file", [], ("no 4 NoFadt 0x0 0x0 0x0\n", 1)),
        ("a file that is not there", [folder / "none"], (f"{folder / 'none'}: cannot be read, or is no table\n", 2)),
    ):
        told = run([path, *words], env=environment)
        cases.count(f"qemu_tables, {name}", "" if told == right else f"{told}, not {right}")


def examples(cases, build, scratch):
    """Compiles the examples and runs them."""
    folder = TOP / "examples"
    built = {}
    for name, source, options in (
        ("unit_test", "unit_test.c", []),
        ("qemu_tables", "qemu_tables.c", []),
        ("fuzz_builder", "fuzz_builder.c", ["-DPLAIN_MAIN"]),
        ("fuzz_builder_wrong", "fuzz_builder.c", ["-DPLAIN_MAIN", '-DBUILDER="wrong_builder.c"']),
    ):
        told = build.compile(scratch, name, [folder / source], *options)
        cases.count(f"examples/{source} as {name}, {build.name}", told)
        built[name] = build.path(scratch, name) if not told else None
    if not all(built.values()):
        return
    counted(cases, build, "examples/unit_test.c", [built["unit_test"]])
    qemu_tables(cases, built["qemu_tables"], build.environment(), scratch)
    told = run([built["fuzz_builder"], "3000"], env=build.environment())
    right = ("3000 machines: all tables are valid\n", 0)
    cases.count(f"examples/fuzz_builder.c, {build.name}", "" if told == right else f"{told}, not {right}")
    told, status = run([built["fuzz_builder_wrong"], "3000"], env=build.environment())
    is_right = told.startswith("no NoFadt 0x0 0x0 0x0\n") and status != 0
    cases.count(f"examples/fuzz_builder.c with a wrong builder, {build.name}", "" if is_right else f"{told}, status {status}")


def fuzzer(cases, folder, scratch):
    """The fuzz target with libFuzzer, where clang has it."""
    clang, path = shutil.which("clang"), scratch / "fuzzer"
    words = [clang, "-g", "-O1", "-fsanitize=fuzzer,address", f"-I{HEADER.parent}", TOP / "examples" / "fuzz_builder.c"]
    if not clang or run([*words, folder / "libacpiset.a", "-o", path])[1] != 0:
        print("left out: examples/fuzz_builder.c with libFuzzer: no clang that has it")
        return
    told, status = run([path, "-runs=20000", "-seed=1"], cwd=scratch)
    cases.count("examples/fuzz_builder.c with libFuzzer", "" if status == 0 else told[-2000:])
