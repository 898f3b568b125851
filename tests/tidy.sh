# What a reader would trip over: long lines, unused imports, uncited laws, indirect dependencies, names that nothing has.
# Run by .ci/run in a shell of its own, or called alone.

type holds >/dev/null 2>&1 || . "$(dirname "${BASH_SOURCE[0]}")/alone"

holds "no line has more than 160 characters" tests/tidy lines
holds "crates.txt names direct dependencies only, and all of them" tests/tidy crates
holds "no import is unused" tests/tidy imports
holds "no definition, law or function is uncited" tests/tidy cited
holds "every name on docs/RULES.md exists" tests/tidy names
