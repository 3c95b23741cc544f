# What a developer types, for Debian's `just`. docs/DEVELOPING.md has the same lines.
# Without a recipe's name, `just` lists them.

exe := "crates/bureau/out/bureau"

_list:
    @just --list --unsorted

# The program, proved or compiled without its proof
bureau *words:
    ./bureau {{words}}

# The tests, without the proof
check:
    ./check

# Everything from nothing; `just full --record` also writes PROVED
full *words:
    ./check --full {{words}}

# Proves and builds the program
prove:
    ./prove

# Compiles the program without its proof
unproved to:
    tools/lib/unproved {{to}}

# Runs golden tests: `just rows rows/desk`
rows *cases="rows":
    rows/run-rows --exe {{exe}} {{cases}}

# Writes the parts of pages that are made of the sources
write:
    tools/check/crates-table --write
    tools/check/trusted --write
    tools/check/message-words --write
    tools/check/editors --write {{exe}}

# Tries mutants, of all crates or of these
mutants *crates:
    tools/search/mutants {{crates}}

# Mutates sessions and packs, for so many minutes
hostile minutes="10":
    tools/search/hostile --exe {{exe}} --minutes {{minutes}}

# Kills saves, days with a journal and days that keep packs
kills:
    tools/search/kill-saves --exe {{exe}}
    tools/search/test-journal --exe {{exe}}
    tools/search/test-keep --exe {{exe}}

# Makes calls on files fail
faults:
    tools/search/inject-faults {{exe}}

# Counts clauses, lines and functions, beside those of a revision
counts revision="HEAD":
    tools/check/counts {{revision}}

# Makes the Debian package
package to:
    tools/package {{exe}} {{to}}
