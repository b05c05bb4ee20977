#!/bin/sh
# Prints a name in one line: quoted.sh NAME. A shell reads the same name from the line, as from those of ls,
# where the system's printf is that of coreutils. Where it is another, a question mark stands for each control
# character. (The line is to be printed by printf: the echo of some shells reads its backslashes.)
name=$(env printf '%q' "$1" 2> /dev/null) || name=$(printf '%s' "$1" | LC_ALL=C tr '\000-\037\177' '?')
printf '%s\n' "$name"
