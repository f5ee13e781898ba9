# Completions of mgcall-draft for fish: its options, and files by what stands at their place.

complete -c mgcall-draft -f
complete -c mgcall-draft -f -n 'test (count (commandline -opc)) -eq 1' -l help -d 'say what it does'
complete -c mgcall-draft -f -n 'test (count (commandline -opc)) -eq 1' -l version -d 'say which version it is'
complete -c mgcall-draft -f -n 'test (count (commandline -opc)) -eq 1' -a '(__fish_complete_suffix .toml)' -d script
complete -c mgcall-draft -f -n 'test (count (commandline -opc)) -eq 2' -a '(__fish_complete_suffix .json)' -d certificate
complete -c mgcall-draft -n 'test (count (commandline -opc)) -ge 2' -s o -r -d 'the file that is written'
complete -c mgcall-draft -f -n 'test (count (commandline -opc)) -ge 2' -l wide -d 'join entries that differ in one component alone'
complete -c mgcall-draft -f -n 'test (count (commandline -opc)) -ge 2' -l whole -d 'go on past a no of K3 or K4'
complete -c mgcall-draft -f -n 'test (count (commandline -opc)) -ge 2' -l quiet -d 'no note on the program, and no progress'
