# A sample of wrong programs, each a small change in the body of a proved function: the prover has to refuse them, or they are listed
# as equal programs. The code itself draws the sample, so that it is the same each time and another one when the code changes.
# tests/wrong-programs says more, and tries all changes when it is asked to. Run by .ci/run in a shell of its own, or called alone.

type holds >/dev/null 2>&1 || . "$(dirname "${BASH_SOURCE[0]}")/alone"

holds "functions are called and judged as the prover calls them" tests/wrong_programs/itself
wrong_seed=$(cat crates/*/src/*.rt | sha256sum | cut -c 1-8)
holds "wrong programs drawn by seed $wrong_seed are refused" tests/wrong-programs --sample "$wrong_seed" 10
