# Completion of ffv1 for bash.

_ffv1() {
    local word="${COMP_WORDS[COMP_CWORD]}" before="${COMP_WORDS[COMP_CWORD - 1]}"
    local command="" words="" i
    for ((i = 1; i < COMP_CWORD; i++)); do
        case "${COMP_WORDS[i]}" in
            -*) ;;
            *) command="${COMP_WORDS[i]}"; break ;;
        esac
    done
    COMPREPLY=()
    case "$before" in
        --coder) words="1 2" ;;
        --contexts) words="small large" ;;
        --container) words="auto avi mkv" ;;
        --codec-id) words="native vfw" ;;
        --range) words="auto limited full" ;;
        --siting) words="auto left centre topleft" ;;
        --ec) words="0 1" ;;
        --against) mapfile -t COMPREPLY < <(compgen -f -- "$word"); return ;;
        --columns | --rows | --rate | --scale | --primaries | --transfer | --matrix \
            | --from | --frames) return ;;
    esac
    if [ -z "$words" ]; then
        case "$command" in
            "") words="pack unpack check show info framemd5 trial help --help --version" ;;
            help) words="pack unpack check show info framemd5 trial faults" ;;
            pack)
                words="--coder --contexts --columns --rows --ec --rate --scale"
                words="$words --container --codec-id --range --siting --primaries --transfer --matrix"
                words="$words --verify --no-clobber --progress --help"
                ;;
            unpack)
                words="--all --from --frames --no-clobber --progress --notes-as-faults --help"
                ;;
            check)
                words="--all --place --quiet --json --against --from --frames --progress"
                words="$words --notes-as-faults --help"
                ;;
            show) words="--cost --help" ;;
            info) words="--count --json --help" ;;
            framemd5) words="--from --frames --notes-as-faults --help" ;;
            trial) words="--help" ;;
        esac
        case "$command $word" in
            " "* | "help "* | *" -"*) ;;
            *) mapfile -t COMPREPLY < <(compgen -f -- "$word"); return ;;
        esac
    fi
    mapfile -t COMPREPLY < <(compgen -W "$words" -- "$word")
}

complete -o filenames -F _ffv1 ffv1
