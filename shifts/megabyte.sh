#!/bin/sh
# Writes a shift with lines of a megabyte: of one letter, of blanks, of digits, and a comment. They are made here, not stored.
mega() { head -c 1048576 /dev/zero | tr '\0' "$1"; }
echo 'define-task 0'
mega z; echo
mega ' '; echo
printf 'define-task '; mega 9; echo
printf '# '; mega c; echo
printf 'define-task 1 # '; mega c; echo
printf 'define-task 2'; mega ' '; echo '3'
echo 'define-task 4'
mega z
