#!/bin/sh
# Each script in sh or bash sources this first, so that what its caller set changes nothing: where `cd` looks, how names are sorted and
# letters are counted, which commands are aliases, where Python looks, and what compiler, linker and packers take beside their arguments. One
# in bash begins with -p, or SHELLOPTS=noexec would run none of it.
\unalias -a
unset CDPATH PYTHONSAFEPATH TAR_OPTIONS GZIP
unset CCC_OVERRIDE_OPTIONS COMPILER_PATH CPATH C_INCLUDE_PATH GCC_EXEC_PREFIX GNUTARGET LDEMULATION LD_RUN_PATH LIBRARY_PATH
export LC_ALL=C
