#!/bin/sh
# Prints the words by which a compiler guards the C of this repository: hardened.sh "CC". Stacks and texts are checked while it runs, and on
# processors that can, jumps and returns lead nowhere but where they may; each word is left out where the compiler doesn't know it.
for words in "-fstack-protector-strong" "-U_FORTIFY_SOURCE -D_FORTIFY_SOURCE=2" "-fcf-protection=full" "-mbranch-protection=standard"; do
    # shellcheck disable=SC2086
    echo "int there;" | $1 $words -Werror -x c -c -o /dev/null - 2> /dev/null && printf '%s ' $words
done
exit 0
