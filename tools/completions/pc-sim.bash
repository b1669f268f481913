# Completions of pc-sim for bash. Source this file, or put it where bash-completion looks for files:
#     cp tools/completions/pc-sim.bash ~/.local/share/bash-completion/completions/pc-sim

# The first of the words that is a command.
_pc_sim_command() {
    local word
    for word; do
        case $word in
        replay | explain | draw | run | session | lab)
            echo "$word"
            return
            ;;
        esac
    done
}

# The files with the extension that fit the word, and folders on the way to some; or all files where there are none.
_pc_sim_files() {
    mapfile -t COMPREPLY < <(compgen -f -X "!*.$2" -- "$1"; compgen -d -- "$1")
    [ "${#COMPREPLY[@]}" -gt 0 ] || mapfile -t COMPREPLY < <(compgen -f -- "$1")
    compopt -o filenames 2>/dev/null
}

_pc_sim() {
    local word=${COMP_WORDS[COMP_CWORD]} command flags name policy
    command=$(_pc_sim_command "${COMP_WORDS[@]:1:COMP_CWORD-1}")
    COMPREPLY=()
    case $command in
    run) flags="--per-cpu --draw --limit --policy --script --seed --runs -h --help" ;;
    draw) flags="--cpus --lines --time -h --help" ;;
    session) flags="--explain -h --help" ;;
    lab) flags="--variants --per-cpu --csv --picture --script -h --help" ;;
    replay | explain) flags="-h --help" ;;
    *) flags="-h --help -V --version" ;;
    esac
    case ${COMP_WORDS[COMP_CWORD-1]} in
    --limit | --seed | --runs | --cpus | --lines) return ;;
    --policy)
        for name in levels fifo least-ran levels-then-least-ran; do
            for policy in "$name" "$name\\ exact"; do
                [[ $policy != "$word"* ]] || COMPREPLY+=("$policy")
            done
        done
        return
        ;;
    --script)
        # Behind `lab` it names a variant.
        [ "$command" = lab ] || _pc_sim_files "$word" script
        return
        ;;
    --variants)
        _pc_sim_files "$word" toml
        return
        ;;
    esac
    case $command:$word in
    *:-*) mapfile -t COMPREPLY < <(compgen -W "$flags" -- "$word") ;;
    :*) mapfile -t COMPREPLY < <(compgen -W "replay explain draw run session lab" -- "$word") ;;
    run:* | lab:*) _pc_sim_files "$word" toml ;;
    *) _pc_sim_files "$word" script ;;
    esac
}

complete -F _pc_sim pc-sim ./pc-sim
