# Completions of ntmend's words for fish. Made by tests/completions.py from crates/ntmend/src/pages.rt; edit neither by hand.
# To use it: put it as ntmend.fish into ~/.config/fish/completions.
complete -c ntmend -f
complete -c ntmend -n 'test (count (commandline -opc)) -lt 3' -F
complete -c ntmend -n 'test (count (commandline -opc)) -eq 1' -l help
complete -c ntmend -n 'test (count (commandline -opc)) -eq 1' -l version
