# Completion for bash: ebpf, ebpf-link and ebpf-inspect.

# Prints the options of a command.
_ebpf_options() {
    case $1 in
    btf) echo '--object --btf --output --allow-ids --json --help --version' ;;
    check) echo '--object --program --all --strict --format --html --sarif --json --color --progress --help --version' ;;
    list) echo '--object --html --json --color --help --version' ;;
    link) echo '--object --btf --kallsyms --kconfig --kernel --program --bytes --lines --color --help --version' ;;
    inspect) echo '--object --btf --kallsyms --kconfig --kernel --program --dot --mermaid --json --color --help --version' ;;
    ebpf-link | ebpf-inspect) echo '--btf --kallsyms --program' ;;
    *) echo '--help --version' ;;
    esac
}

_ebpf() {
    local word=${COMP_WORDS[COMP_CWORD]} before=${COMP_WORDS[COMP_CWORD - 1]} command=${COMP_WORDS[0]##*/}
    COMPREPLY=()
    if [ "$command" = ebpf ]; then
        if [ "$COMP_CWORD" = 1 ]; then
            mapfile -t COMPREPLY < <(compgen -W 'btf check list link inspect --help --version' -- "$word")
            return
        fi
        command=${COMP_WORDS[1]}
    fi
    case $before in
    --object | --program | --kernel) return ;;
    --format)
        mapfile -t COMPREPLY < <(compgen -W 'text json github' -- "$word")
        return
        ;;
    --color)
        mapfile -t COMPREPLY < <(compgen -W 'auto always never' -- "$word")
        return
        ;;
    esac
    if [[ $word == -* ]]; then
        mapfile -t COMPREPLY < <(compgen -W "$(_ebpf_options "$command")" -- "$word")
    else
        mapfile -t COMPREPLY < <(compgen -f -- "$word")
    fi
}

complete -o filenames -F _ebpf ebpf ebpf-link ebpf-inspect
