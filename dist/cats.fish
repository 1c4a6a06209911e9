# Completion of `cats` for fish: the subcommands and options that its help lists, and paths.

# Whether a path is due, by the usage of the subcommand, as `compare [OPTIONS] <FILE> <FILE>`.
function __cats_takes_path
    set -l words (commandline -opc)
    set -l help (command cats $words[2] --help 2> /dev/null)
    set -l usage (string match -r '^Usage: .*' -- $help | string replace ' [OPTIONS]' '' | string split ' ')
    set -l valued (string replace -rf '.* (--\S+) <.*' '$1' -- $help)
    set -l list (string replace -rf '.* (--\S+) <LIST>.*' '$1' -- $help)
    set -l at 4
    for word in $words[3..-1]
        # The word after an option with a value, as `--steps <N>`, is no operand.
        if contains -- $word $valued
            set at (math $at - 1)
        else if not string match -q -- '-*' $word
            set at (math $at + 1)
        end
    end
    test "$usage[-1]" = '[FILE]...'; and not string match -q -- "$list*" $words; or contains -- "$usage[$at]" '<FILE>' '<DIR>'
end

complete -c cats -f
complete -c cats -n __cats_takes_path -F
complete -c cats -s h -l help -d 'Print help'
complete -c cats -n __fish_use_subcommand -s V -l version -d 'Print version'
for line in (command cats --help | sed -n '/^Commands:/,/^$/s/^  \([a-z]*\)  */\1\t/p')
    set -l command (string split \t $line)
    complete -c cats -n __fish_use_subcommand -a $command[1] -d $command[2]
    complete -c cats -n '__fish_seen_subcommand_from help' -a $command[1] -d $command[2]
    for option in (command cats $command[1] --help 2> /dev/null | sed -n '/^Options:/,/--help/p')
        string match -rq '^ +(?:-(?<short>.), )?--(?<long>[a-z0-9-]+)(?: <(?<value>[A-Z]+)>)? *(?<text>.*)' -- $option; or continue
        set -l kind
        switch $value
            case LIST
                set kind -r -F
            case '?*'
                set kind -x
        end
        if test -n "$short"
            set -a kind -s $short
        end
        complete -c cats -n "__fish_seen_subcommand_from $command[1]" -l $long -d $text $kind
    end
end
