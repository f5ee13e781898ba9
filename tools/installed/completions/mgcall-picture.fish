# Completions of mgcall-picture for fish: its options, and files by what stands at their place.

complete -c mgcall-picture -f
complete -c mgcall-picture -f -n 'test (count (commandline -opc)) -eq 1' -l help -d 'say what it does'
complete -c mgcall-picture -f -n 'test (count (commandline -opc)) -eq 1' -l version -d 'say which version it is'
complete -c mgcall-picture -f -n 'test (count (commandline -opc)) -eq 1' -a '(__fish_complete_suffix .toml)' -d script
complete -c mgcall-picture -f -n 'test (count (commandline -opc)) -ge 2' -l quiet -d 'no note on the program, and no progress'
