# Completion of rnxcmp, RNX2CRX, CRX2RNX, rnx2crx, crx2rnx and rnxcmp-file for bash.

_rnxcmp_files() {
    # $1: an extended pattern of names, $2: the word so far
    local shopts
    shopts=$(shopt -p extglob)
    shopt -s extglob
    mapfile -t COMPREPLY < <(compgen -o plusdirs -f -X "!$1" -- "$2")
    eval "$shopts"
}

_rnxcmp_words() {
    # $1: the subcommand, $2: the word so far, $3: the word before it
    case $3 in
        @valued@) return ;;
    esac
    case $1 in
        rnx2crx)
            [[ $2 == -* ]] && mapfile -t COMPREPLY < <(compgen -W '@rnx2crx@ -' -- "$2")
            [[ $2 == -* ]] || _rnxcmp_files '*.@(rnx|RNX|[0-9][0-9][oO])' "$2"
            ;;
        crx2rnx)
            [[ $2 == -* ]] && mapfile -t COMPREPLY < <(compgen -W '@crx2rnx@ -' -- "$2")
            [[ $2 == -* ]] || _rnxcmp_files '*.@(crx|CRX|[0-9][0-9][dD])' "$2"
            ;;
        check)
            [[ $2 == -* ]] && mapfile -t COMPREPLY < <(compgen -W '@check@ -' -- "$2")
            [[ $2 == -* ]] || mapfile -t COMPREPLY < <(compgen -o plusdirs -f -- "$2")
            ;;
    esac
}

_rnxcmp() {
    COMPREPLY=()
    if [[ $COMP_CWORD -eq 1 ]]; then
        mapfile -t COMPREPLY < <(compgen -W 'rnx2crx crx2rnx check -h --help' -- "$2")
    else
        _rnxcmp_words "${COMP_WORDS[1]}" "$2" "$3"
    fi
}

_RNX2CRX() {
    COMPREPLY=()
    _rnxcmp_words rnx2crx "$2" "$3"
}

_CRX2RNX() {
    COMPREPLY=()
    _rnxcmp_words crx2rnx "$2" "$3"
}

_rnxcmp_file() {
    local choices='-o --to --from --new -j --inputs --gzip --no-gzip --verify --verified-to --normal-form --accept-cut -f -s -v --max-output --json -q -h --help'
    COMPREPLY=()
    if [[ $COMP_CWORD -eq 1 ]]; then
        mapfile -t COMPREPLY < <(compgen -W 'rnx2crx crx2rnx check explain -h --help --version' -- "$2")
        return
    fi
    case $3 in
        -e | --date | --max-output | -j) return ;;
        --to | --from)
            mapfile -t COMPREPLY < <(compgen -d -- "$2")
            return
            ;;
        -o | --inputs | --verified-to)
            mapfile -t COMPREPLY < <(compgen -o plusdirs -f -- "$2")
            return
            ;;
    esac
    [[ ${COMP_WORDS[1]} == rnx2crx ]] && choices+=' -e --date'
    case ${COMP_WORDS[1]}$2 in
        rnx2crx-* | crx2rnx-*) mapfile -t COMPREPLY < <(compgen -W "$choices" -- "$2") ;;
        rnx2crx*) _rnxcmp_files '*.@(rnx|RNX|[0-9][0-9][oO])?(.gz|.Z|.bz2|.xz|.zip)' "$2" ;;
        crx2rnx*) _rnxcmp_files '*.@(crx|CRX|[0-9][0-9][dD])?(.gz|.Z|.bz2|.xz|.zip)' "$2" ;;
        check-*) mapfile -t COMPREPLY < <(compgen -W '-j --json -q --inputs -h --help' -- "$2") ;;
        explain-*) mapfile -t COMPREPLY < <(compgen -W '--json --inputs -h --help' -- "$2") ;;
        check* | explain*) _rnxcmp_files '*.@(rnx|RNX|crx|CRX|[0-9][0-9][oOdD])?(.gz|.Z|.bz2|.xz|.zip)' "$2" ;;
    esac
}

complete -o filenames -F _rnxcmp rnxcmp
complete -o filenames -F _RNX2CRX RNX2CRX rnx2crx
complete -o filenames -F _CRX2RNX CRX2RNX crx2rnx
complete -o filenames -F _rnxcmp_file rnxcmp-file
