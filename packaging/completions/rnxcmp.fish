# Completion of rnxcmp, RNX2CRX, CRX2RNX, rnx2crx, crx2rnx and rnxcmp-file for fish, which reads it once for each of these names, by the
# file's name.

set -l tools rnx2crx crx2rnx check

for name in rnxcmp RNX2CRX CRX2RNX rnx2crx crx2rnx rnxcmp-file
    complete -c $name -e
    complete -c $name -s h -l help -d 'Print help'
end

complete -c rnxcmp -n "not __fish_seen_subcommand_from $tools" -f -a rnx2crx -d 'Compact a RINEX 3.0x observation file'
complete -c rnxcmp -n "not __fish_seen_subcommand_from $tools" -f -a crx2rnx -d 'Expand Compact RINEX 3.0'
complete -c rnxcmp -n "not __fish_seen_subcommand_from $tools" -f -a check -d 'Report on a RINEX 3.0x observation file'

# The options of the subcommands, from their help.
@options@

complete -c rnxcmp-file -n 'not __fish_seen_subcommand_from rnx2crx crx2rnx check explain' -f -a rnx2crx -d 'Compact files'
complete -c rnxcmp-file -n 'not __fish_seen_subcommand_from rnx2crx crx2rnx check explain' -f -a crx2rnx -d 'Expand files'
complete -c rnxcmp-file -n 'not __fish_seen_subcommand_from rnx2crx crx2rnx check explain' -f -a check -d 'Say which files are not valid or whole'
complete -c rnxcmp-file -n 'not __fish_seen_subcommand_from rnx2crx crx2rnx check explain' -f -a explain -d 'Say why files are refused'
complete -c rnxcmp-file -n 'not __fish_seen_subcommand_from rnx2crx crx2rnx check explain' -l version -d 'Print the version'
complete -c rnxcmp-file -n '__fish_seen_subcommand_from rnx2crx' -s e -x -d 'Start everything anew at every N epochs'
complete -c rnxcmp-file -n '__fish_seen_subcommand_from rnx2crx' -l date -x -d 'The date in line 2 of the output'
complete -c rnxcmp-file -n '__fish_seen_subcommand_from rnx2crx crx2rnx' -s s -d 'Warn about strange epochs and skip them'
complete -c rnxcmp-file -n '__fish_seen_subcommand_from rnx2crx crx2rnx' -s f -d 'Replace an output that exists'
complete -c rnxcmp-file -n '__fish_seen_subcommand_from rnx2crx crx2rnx' -l gzip -d 'Pack the output'
complete -c rnxcmp-file -n '__fish_seen_subcommand_from rnx2crx crx2rnx' -l no-gzip -d 'Do not pack the output'
complete -c rnxcmp-file -n '__fish_seen_subcommand_from rnx2crx crx2rnx' -s o -r -d 'The name of the output'
complete -c rnxcmp-file -n '__fish_seen_subcommand_from rnx2crx crx2rnx' -l to -r -d 'The folder below which the outputs are'
complete -c rnxcmp-file -n '__fish_seen_subcommand_from rnx2crx crx2rnx' -l from -r -d 'The folder below which the inputs are'
complete -c rnxcmp-file -n '__fish_seen_subcommand_from rnx2crx crx2rnx' -l new -d 'Pass over inputs whose output exists'
complete -c rnxcmp-file -n '__fish_seen_subcommand_from rnx2crx crx2rnx check' -s j -x -d 'Do several files at once'
complete -c rnxcmp-file -n '__fish_seen_subcommand_from rnx2crx crx2rnx check explain' -l inputs -r -d 'A list of more inputs'
complete -c rnxcmp-file -n '__fish_seen_subcommand_from rnx2crx crx2rnx' -l verify -d 'Compare the output with the input'
complete -c rnxcmp-file -n '__fish_seen_subcommand_from rnx2crx crx2rnx' -l verified-to -r -d 'List the verified inputs'
complete -c rnxcmp-file -n '__fish_seen_subcommand_from rnx2crx crx2rnx' -l normal-form -d 'List those verified by normal form too'
complete -c rnxcmp-file -n '__fish_seen_subcommand_from rnx2crx crx2rnx' -l accept-cut -d 'List those whose last line has no line end too'
complete -c rnxcmp-file -n '__fish_seen_subcommand_from rnx2crx crx2rnx' -l max-output -x -d 'Make no longer output'
complete -c rnxcmp-file -n '__fish_seen_subcommand_from rnx2crx crx2rnx' -s v -d 'Print all warnings'
complete -c rnxcmp-file -n '__fish_seen_subcommand_from rnx2crx crx2rnx check explain' -l json -d 'Print a JSON object a file'
complete -c rnxcmp-file -n '__fish_seen_subcommand_from rnx2crx crx2rnx check' -s q -d 'Print messages and the summary alone'
