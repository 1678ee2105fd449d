# Completes the words of dbgrec in bash: commands, options, and the values of those options that have a few.

_dbgrec() {
    local word=${COMP_WORDS[COMP_CWORD]} before=${COMP_WORDS[COMP_CWORD - 1]} offered=
    local commands="import list show export info top wipe stream record sim"
    local readers="--kind --suffix --count" new="--size --time --after-failure"
    local chosen="--from --to --only --pid --mfa --not --not-pid --not-mfa" laid="--relative --delta --utc --since --until --grep --last --color --full --width --longest-text"
    local kinds="call return exception send send_lost receive other opaque drop part seq_trace return_to spawn spawned exit" kind told=
    kinds+=" register unregister link unlink getting_linked getting_unlinked in in_exiting out out_exiting out_exited"
    kinds+=" gc_minor_start gc_minor_end gc_major_start gc_major_end gc_max_heap_size open closed"

    # bash parts `--kind=wrap` at the sign
    if [[ $word == = ]]; then
        word=
    elif [[ $before == = ]]; then
        before=${COMP_WORDS[COMP_CWORD - 2]}
    fi
    COMPREPLY=()
    case $before in
    --kind) offered="file wrap" ;;
    --flush) offered="always paused never" ;;
    --as) offered="stream folded perfetto" ;;
    --by) offered="function process kind" ;;
    --color) offered="always never auto" ;;
    --sort) offered="count exceptions total mean longest waiting" ;;
    --only | --not)
        [[ $word == *,* ]] && told=${word%,*},
        for kind in $kinds; do offered+="$told$kind "; done
        ;;
    --suffix | --count | --size | --time | --skip | --from | --to | --pid | --mfa | --not-pid | --not-mfa | --longest | --limit | --since | --until | --grep | --last | --width | --longest-text) return ;;
    *)
        if ((COMP_CWORD == 1)); then
            offered="$commands --help --version"
        elif [[ $word == -* ]]; then
            case ${COMP_WORDS[1]} in
            import) offered="$readers $new --flush --keep-open --skip --longest --help" ;;
            record) offered="$readers $new --help" ;;
            list) offered="$readers --pretty --json $chosen --follow --salvage --help" ;;
            show) offered="$readers $chosen $laid --follow --salvage --help" ;;
            export) offered="$readers --as --salvage $chosen --help" ;;
            info) offered="$readers --json --help" ;;
            top) offered="$readers --by --sort --limit --json $chosen --help" ;;
            wipe) offered="$readers --force --help" ;;
            stream) offered="--pretty --json $chosen --longest --help" ;;
            *) offered="--help" ;;
            esac
        fi
        ;;
    esac
    if [[ -n $offered ]]; then
        mapfile -t COMPREPLY < <(compgen -W "$offered" -- "$word")
    elif [[ " import list show export info top wipe record " == *" ${COMP_WORDS[1]} "* ]]; then
        compopt -o filenames 2>/dev/null
        mapfile -t COMPREPLY < <(compgen -f -- "$word")
    fi
}

complete -F _dbgrec dbgrec
