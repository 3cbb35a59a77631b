# acpiset: try, build, run, test, library, install. To try, build and test, the toolchain's `rt` must be on the PATH.
program := crates/acpi_cli/out/acpi_cli
archive := crates/acpi_c/out/libacpi_c.a

# What `try` runs the program on, besides the example, and the program's arguments for it, as a shell reads them.
IMAGE ?=
ARGUMENTS ?= check

# Where `install` puts what is installed: scripts/install says what each means.
PREFIX ?= /usr/local
DESTDIR ?=
LIBDIR ?=
PC_PREFIX ?=
BINARY ?=
LIBRARY ?=

# What `fuzz` runs: this many cases, with this seed.
N ?= 20000
SEED ?=

# A script gets these names and numbers in its environment, exactly as given: make does not expand variables in them, and no shell
# reads them as part of a command.
override IMAGE := $(value IMAGE)
override PREFIX := $(value PREFIX)
override DESTDIR := $(value DESTDIR)
override LIBDIR := $(value LIBDIR)
override PC_PREFIX := $(value PC_PREFIX)
override BINARY := $(value BINARY)
override LIBRARY := $(value LIBRARY)
override N := $(value N)
override SEED := $(value SEED)
export IMAGE PREFIX DESTDIR LIBDIR PC_PREFIX BINARY LIBRARY N SEED

# What a caller set for other shells and programs: with SHELLOPTS=noexec a shell runs nothing, and ends well.
unexport SHELLOPTS BASHOPTS BASH_ENV PYTHONSAFEPATH

# A second make in this checkout waits until the first one has ended; what is run `beside` others does not. Both end with make.
alone := exec scripts/alone
beside := $(alone) --beside

# Ends make with one line if the toolchain is missing. It is expanded at the beginning of a recipe.
needs_toolchain = $(if $(shell command -v rt || :),,$(error the Rattle toolchain is missing: put the folder of its command `rt` on the PATH, or take the archive of a release, which needs no toolchain (README.md)))

targets := try run build test gate kept library bench fuzz install install-library uninstall dist clean

# The crates that `gate` is limited to: words beside it that are no target.
named := $(if $(filter gate,$(MAKECMDGOALS)),$(filter-out $(targets),$(MAKECMDGOALS)))

# Makes the library from what was proved, so that it is tested too; not on a machine without a C compiler.
link_library = { ! command -v cc >/dev/null || scripts/library $(archive); }

.PHONY: $(targets) $(named)

# Builds the program without a proof, and runs it on the example and on IMAGE.
try:
	$(needs_toolchain)@$(beside) scripts/try $(if $(IMAGE),"$$IMAGE" $(ARGUMENTS))

# Proves and builds the program, and checks the smallest set of tables.
run: build
	./acpiset check --rsdp e0000 --through 3 < crates/acpi_cli/stdin

# Proves the program and leaves it as ./acpiset.
build:
	$(needs_toolchain)@$(alone) scripts/prove program

# Continues from what `build` or `gate` left: proves and builds the rest, and runs all tests.
test:
	$(needs_toolchain)@$(alone) sh -c 'scripts/prove tests && $(link_library) && tests/all.sh $(program) crates/*/out/*_tests'

# Proves everything that this machine has not passed with the same sources, tries each wrong body that must be refused, and builds what
# `test` then runs the scripts on. `make gate acpi_base acpi_read` only passes these crates and those below them, on a copy, so that the
# gate need not prove them again; `make kept` says which are passed.
gate:
	$(needs_toolchain)@$(if $(named),$(beside),$(alone)) scripts/prove gate $(named)

# Nothing is made of the words themselves.
$(if $(named),$(eval $(named): ; @:))

kept:
	$(needs_toolchain)@scripts/kept

# Proves the library for C and C++, and leaves it as library/libacpiset.a and library/libacpiset.so.1.
library:
	$(needs_toolchain)@$(alone) sh -c 'scripts/prove library && scripts/library $(archive)'

# Prints speed and memory beside other programs, and ends with an error if a limit is exceeded; not part of the tests.
bench: build library
	status=0; for mode in '' --worst --lint --tools; do bench/run $$mode ./acpiset || status=1; done; exit $$status

# Compares ./acpiset, or BINARY, with second programs on N random cases; `make test` does it on a few. It prints the seed, which
# gives the same cases again.
fuzz:
	@program=$${BINARY:-./acpiset} && seed=$${SEED:-$$(date +%s)} && \
	{ [ -x "$$program" ] || { echo "$$program is missing: \`make build\` first, which makes ./acpiset" >&2 && false; }; } && \
	echo "fuzz: $$N cases of seed $$seed" && exec tests/fuzz/run.py "$$program" --seed "$$seed" --cases "$$N"

# The program, the tools as acpiset-NAME, the manual pages and the documents; and the library, if it is there. None of these three
# builds anything.
install:
	@scripts/install install

# The library, its header, its pkg-config file, and its manual page.
install-library:
	@scripts/install install-library

uninstall:
	@scripts/install uninstall

# An archive for machines without the toolchain, the same bytes each time: dist/acpiset-VERSION-x86_64-linux.tar.gz. It builds nothing
# either.
dist:
	@$(alone) scripts/archive

clean:
	$(alone) rm -rf crates/*/out acpiset library dist out
