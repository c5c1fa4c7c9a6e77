# Completions of ntboot's words for fish. Made by tests/completions.py from crates/command_words/src/table.rt; edit neither by hand.
# To use it: put it as ntboot.fish into ~/.config/fish/completions.
# The words begin with this command, and the option was not given, but perhaps as the word just before.
function __ntboot_can
    set -l words (commandline -opc)
    test (count $words) -gt 1; and test $words[2] = $argv[1]; or return 1
    not contains -- --$argv[2] $words[3..-2]
end
function __ntboot_asks_help
    set -l words (commandline -opc)
    test (count $words) -eq 2; and test $words[2] = help
end
complete -c ntboot -f
complete -c ntboot -n 'test (count (commandline -opc)) -eq 1' -a 'run show make safe control twin export import key replay check whatif salvage diff why graph sweep devices find services help version'
complete -c ntboot -n '__ntboot_asks_help' -a 'run show make safe control twin export import key replay check whatif salvage diff why graph sweep devices find services help version exits script report'
complete -c ntboot -n '__ntboot_can run hive' -l hive -r -F
complete -c ntboot -n '__ntboot_can run script' -l script -r -F
complete -c ntboot -n '__ntboot_can run log' -l log -r -F
complete -c ntboot -n '__ntboot_can run boot-ini' -l boot-ini -r -F
complete -c ntboot -n '__ntboot_can run system' -l system -x
complete -c ntboot -n '__ntboot_can run save-hive' -l save-hive -r -F
complete -c ntboot -n '__ntboot_can run save-log' -l save-log -r -F
complete -c ntboot -n '__ntboot_can run json' -l json
complete -c ntboot -n '__ntboot_can run verbose' -l verbose
complete -c ntboot -n '__ntboot_can show hive' -l hive -r -F
complete -c ntboot -n '__ntboot_can show log' -l log -r -F
complete -c ntboot -n '__ntboot_can show json' -l json
complete -c ntboot -n '__ntboot_can show verbose' -l verbose
complete -c ntboot -n '__ntboot_can make save-hive' -l save-hive -r -F
complete -c ntboot -n '__ntboot_can make json' -l json
complete -c ntboot -n '__ntboot_can make verbose' -l verbose
complete -c ntboot -n '__ntboot_can safe hive' -l hive -r -F
complete -c ntboot -n '__ntboot_can safe log' -l log -r -F
complete -c ntboot -n '__ntboot_can safe boot-ini' -l boot-ini -r -F
complete -c ntboot -n '__ntboot_can safe system' -l system -x
complete -c ntboot -n '__ntboot_can safe mode' -l mode -x -a 'minimal network'
complete -c ntboot -n '__ntboot_can safe images' -l images
complete -c ntboot -n '__ntboot_can safe json' -l json
complete -c ntboot -n '__ntboot_can safe verbose' -l verbose
complete -c ntboot -n '__ntboot_can control hive' -l hive -r -F
complete -c ntboot -n '__ntboot_can control log' -l log -r -F
complete -c ntboot -n '__ntboot_can control commands' -l commands -r -F
complete -c ntboot -n '__ntboot_can control json' -l json
complete -c ntboot -n '__ntboot_can control verbose' -l verbose
complete -c ntboot -n '__ntboot_can twin hive' -l hive -r -F
complete -c ntboot -n '__ntboot_can twin alt' -l alt -r -F
complete -c ntboot -n '__ntboot_can twin scheme' -l scheme -x -a 'alt log'
complete -c ntboot -n '__ntboot_can twin default' -l default -x
complete -c ntboot -n '__ntboot_can twin save-hive' -l save-hive -r -F
complete -c ntboot -n '__ntboot_can twin save-alt' -l save-alt -r -F
complete -c ntboot -n '__ntboot_can twin json' -l json
complete -c ntboot -n '__ntboot_can twin verbose' -l verbose
complete -c ntboot -n '__ntboot_can export hive' -l hive -r -F
complete -c ntboot -n '__ntboot_can export log' -l log -r -F
complete -c ntboot -n '__ntboot_can export reg' -l reg -r -F
complete -c ntboot -n '__ntboot_can export key' -l key -x
complete -c ntboot -n '__ntboot_can export json' -l json
complete -c ntboot -n '__ntboot_can export verbose' -l verbose
complete -c ntboot -n '__ntboot_can import hive' -l hive -r -F
complete -c ntboot -n '__ntboot_can import log' -l log -r -F
complete -c ntboot -n '__ntboot_can import reg' -l reg -r -F
complete -c ntboot -n '__ntboot_can import save-hive' -l save-hive -r -F
complete -c ntboot -n '__ntboot_can import save-log' -l save-log -r -F
complete -c ntboot -n '__ntboot_can import encoding' -l encoding -x -a 'utf-16 utf-8'
complete -c ntboot -n '__ntboot_can import current' -l current -x -a 'default'
complete -c ntboot -n '__ntboot_can import lenient' -l lenient
complete -c ntboot -n '__ntboot_can import json' -l json
complete -c ntboot -n '__ntboot_can import verbose' -l verbose
complete -c ntboot -n '__ntboot_can key hive' -l hive -r -F
complete -c ntboot -n '__ntboot_can key log' -l log -r -F
complete -c ntboot -n '__ntboot_can key key' -l key -x
complete -c ntboot -n '__ntboot_can key depth' -l depth -x
complete -c ntboot -n '__ntboot_can key security' -l security
complete -c ntboot -n '__ntboot_can key json' -l json
complete -c ntboot -n '__ntboot_can key verbose' -l verbose
complete -c ntboot -n '__ntboot_can replay hive' -l hive -r -F
complete -c ntboot -n '__ntboot_can replay log' -l log -r -F
complete -c ntboot -n '__ntboot_can replay log1' -l log1 -r -F
complete -c ntboot -n '__ntboot_can replay log2' -l log2 -r -F
complete -c ntboot -n '__ntboot_can replay save-hive' -l save-hive -r -F
complete -c ntboot -n '__ntboot_can replay json' -l json
complete -c ntboot -n '__ntboot_can replay verbose' -l verbose
complete -c ntboot -n '__ntboot_can check hive' -l hive -r -F
complete -c ntboot -n '__ntboot_can check log' -l log -r -F
complete -c ntboot -n '__ntboot_can check set' -l set -x
complete -c ntboot -n '__ntboot_can check order' -l order
complete -c ntboot -n '__ntboot_can check json' -l json
complete -c ntboot -n '__ntboot_can check verbose' -l verbose
complete -c ntboot -n '__ntboot_can whatif hive' -l hive -r -F
complete -c ntboot -n '__ntboot_can whatif log' -l log -r -F
complete -c ntboot -n '__ntboot_can whatif boot-ini' -l boot-ini -r -F
complete -c ntboot -n '__ntboot_can whatif system' -l system -x
complete -c ntboot -n '__ntboot_can whatif of' -l of -x
complete -c ntboot -n '__ntboot_can whatif json' -l json
complete -c ntboot -n '__ntboot_can whatif verbose' -l verbose
complete -c ntboot -n '__ntboot_can salvage hive' -l hive -r -F
complete -c ntboot -n '__ntboot_can salvage log' -l log -r -F
complete -c ntboot -n '__ntboot_can salvage save-hive' -l save-hive -r -F
complete -c ntboot -n '__ntboot_can salvage by-parent' -l by-parent
complete -c ntboot -n '__ntboot_can salvage json' -l json
complete -c ntboot -n '__ntboot_can salvage verbose' -l verbose
complete -c ntboot -n '__ntboot_can diff hive' -l hive -r -F
complete -c ntboot -n '__ntboot_can diff log' -l log -r -F
complete -c ntboot -n '__ntboot_can diff set' -l set -x
complete -c ntboot -n '__ntboot_can diff with' -l with -r -F
complete -c ntboot -n '__ntboot_can diff with-log' -l with-log -r -F
complete -c ntboot -n '__ntboot_can diff with-set' -l with-set -x
complete -c ntboot -n '__ntboot_can diff all' -l all
complete -c ntboot -n '__ntboot_can diff json' -l json
complete -c ntboot -n '__ntboot_can diff verbose' -l verbose
complete -c ntboot -n '__ntboot_can why hive' -l hive -r -F
complete -c ntboot -n '__ntboot_can why log' -l log -r -F
complete -c ntboot -n '__ntboot_can why boot-ini' -l boot-ini -r -F
complete -c ntboot -n '__ntboot_can why system' -l system -x
complete -c ntboot -n '__ntboot_can why script' -l script -r -F
complete -c ntboot -n '__ntboot_can why json' -l json
complete -c ntboot -n '__ntboot_can why verbose' -l verbose
complete -c ntboot -n '__ntboot_can graph hive' -l hive -r -F
complete -c ntboot -n '__ntboot_can graph log' -l log -r -F
complete -c ntboot -n '__ntboot_can graph boot-ini' -l boot-ini -r -F
complete -c ntboot -n '__ntboot_can graph system' -l system -x
complete -c ntboot -n '__ntboot_can graph script' -l script -r -F
complete -c ntboot -n '__ntboot_can graph of' -l of -x
complete -c ntboot -n '__ntboot_can graph json' -l json
complete -c ntboot -n '__ntboot_can graph verbose' -l verbose
complete -c ntboot -n '__ntboot_can sweep hive' -l hive -r -F
complete -c ntboot -n '__ntboot_can sweep script' -l script -r -F
complete -c ntboot -n '__ntboot_can sweep log' -l log -r -F
complete -c ntboot -n '__ntboot_can sweep boot-ini' -l boot-ini -r -F
complete -c ntboot -n '__ntboot_can sweep system' -l system -x
complete -c ntboot -n '__ntboot_can sweep json' -l json
complete -c ntboot -n '__ntboot_can sweep verbose' -l verbose
complete -c ntboot -n '__ntboot_can devices hive' -l hive -r -F
complete -c ntboot -n '__ntboot_can devices log' -l log -r -F
complete -c ntboot -n '__ntboot_can devices set' -l set -x
complete -c ntboot -n '__ntboot_can devices of' -l of -x
complete -c ntboot -n '__ntboot_can devices findings' -l findings
complete -c ntboot -n '__ntboot_can devices ids' -l ids
complete -c ntboot -n '__ntboot_can devices critical' -l critical
complete -c ntboot -n '__ntboot_can devices json' -l json
complete -c ntboot -n '__ntboot_can devices verbose' -l verbose
complete -c ntboot -n '__ntboot_can find hive' -l hive -r -F
complete -c ntboot -n '__ntboot_can find log' -l log -r -F
complete -c ntboot -n '__ntboot_can find text' -l text -x
complete -c ntboot -n '__ntboot_can find hex' -l hex -x
complete -c ntboot -n '__ntboot_can find names' -l names
complete -c ntboot -n '__ntboot_can find data' -l data
complete -c ntboot -n '__ntboot_can find exact' -l exact
complete -c ntboot -n '__ntboot_can find key' -l key -x
complete -c ntboot -n '__ntboot_can find json' -l json
complete -c ntboot -n '__ntboot_can find verbose' -l verbose
complete -c ntboot -n '__ntboot_can services hive' -l hive -r -F
complete -c ntboot -n '__ntboot_can services log' -l log -r -F
complete -c ntboot -n '__ntboot_can services set' -l set -x
complete -c ntboot -n '__ntboot_can services start' -l start -x
complete -c ntboot -n '__ntboot_can services kind' -l kind -x -a 'driver service'
complete -c ntboot -n '__ntboot_can services since' -l since -x
complete -c ntboot -n '__ntboot_can services sort' -l sort -x -a 'name written order'
complete -c ntboot -n '__ntboot_can services json' -l json
complete -c ntboot -n '__ntboot_can services verbose' -l verbose
