# Completions of ntboot's words for bash. Made by tests/completions.py from crates/command_words/src/table.rt; edit neither by hand.
# To use it: source this file, or put it into /usr/share/bash-completion/completions as ntboot.
_ntboot() {
    local current=${COMP_WORDS[COMP_CWORD]} before=${COMP_WORDS[COMP_CWORD-1]} command=${COMP_WORDS[1]} options= word i
    COMPREPLY=()
    if [ "$COMP_CWORD" -eq 1 ]; then
        COMPREPLY=($(compgen -W "run show make safe control twin export import key replay check whatif salvage diff why graph sweep devices find services help version" -- "$current"))
        return
    fi
    # --name=value comes as three words
    if [ "$before" = = ]; then before=${COMP_WORDS[COMP_CWORD-2]}; elif [ "$current" = = ]; then before=${COMP_WORDS[COMP_CWORD-1]} current=; fi
    case $command in
        run) options="--hive --script --log --boot-ini --system --save-hive --save-log --json --verbose" ;;
        show) options="--hive --log --json --verbose" ;;
        make) options="--save-hive --json --verbose" ;;
        safe) options="--hive --log --boot-ini --system --mode --images --json --verbose" ;;
        control) options="--hive --log --commands --json --verbose" ;;
        twin) options="--hive --alt --scheme --default --save-hive --save-alt --json --verbose" ;;
        export) options="--hive --log --reg --key --json --verbose" ;;
        import) options="--hive --log --reg --save-hive --save-log --encoding --current --lenient --json --verbose" ;;
        key) options="--hive --log --key --depth --security --json --verbose" ;;
        replay) options="--hive --log --log1 --log2 --save-hive --json --verbose" ;;
        check) options="--hive --log --set --order --json --verbose" ;;
        whatif) options="--hive --log --boot-ini --system --of --json --verbose" ;;
        salvage) options="--hive --log --save-hive --by-parent --json --verbose" ;;
        diff) options="--hive --log --set --with --with-log --with-set --all --json --verbose" ;;
        why) options="--hive --log --boot-ini --system --script --json --verbose" ;;
        graph) options="--hive --log --boot-ini --system --script --of --json --verbose" ;;
        sweep) options="--hive --script --log --boot-ini --system --json --verbose" ;;
        devices) options="--hive --log --set --of --findings --ids --critical --json --verbose" ;;
        find) options="--hive --log --text --hex --names --data --exact --key --json --verbose" ;;
        services) options="--hive --log --set --start --kind --since --sort --json --verbose" ;;
        help) [ "$COMP_CWORD" -eq 2 ] && COMPREPLY=($(compgen -W "run show make safe control twin export import key replay check whatif salvage diff why graph sweep devices find services help version exits script report" -- "$current")); return ;;
        *) return ;;
    esac
    case $before in
        --hive|--script|--log|--boot-ini|--save-hive|--save-log|--commands|--alt|--save-alt|--reg|--log1|--log2|--with|--with-log)
            compopt -o filenames 2> /dev/null
            mapfile -t COMPREPLY < <(compgen -f -- "$current"); return ;;
        --mode) COMPREPLY=($(compgen -W "minimal network" -- "$current")); return ;;
        --scheme) COMPREPLY=($(compgen -W "alt log" -- "$current")); return ;;
        --encoding) COMPREPLY=($(compgen -W "utf-16 utf-8" -- "$current")); return ;;
        --current) COMPREPLY=($(compgen -W "default" -- "$current")); return ;;
        --kind) COMPREPLY=($(compgen -W "driver service" -- "$current")); return ;;
        --sort) COMPREPLY=($(compgen -W "name written order" -- "$current")); return ;;
        --system|--default|--key|--depth|--set|--of|--with-set|--text|--hex|--start|--since) return ;;
    esac
    # an option is given once
    for word in $options; do
        for ((i = 2; i < COMP_CWORD; i++)); do
            [ "${COMP_WORDS[i]}" = "$word" ] && continue 2
        done
        COMPREPLY+=($(compgen -W "$word" -- "$current"))
    done
}
complete -F _ntboot ntboot
