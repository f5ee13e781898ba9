# Completions of mgcall-why for fish: its options, and files by what stands at their place.

complete -c mgcall-why -f
complete -c mgcall-why -f -n 'test (count (commandline -opc)) -eq 1' -l help -d 'say what it does'
complete -c mgcall-why -f -n 'test (count (commandline -opc)) -eq 1' -l version -d 'say which version it is'
complete -c mgcall-why -f -n 'test (count (commandline -opc)) -eq 1' -a '(__fish_complete_suffix .toml)' -d script
complete -c mgcall-why -f -n 'test (count (commandline -opc)) -eq 2' -a '(__fish_complete_suffix .json)' -d certificate
complete -c mgcall-why -n 'test (count (commandline -opc)) -eq 3' -l json -d 'as one JSON value'
complete -c mgcall-why -n 'test (count (commandline -opc)) -eq 3' -l dot -d 'as a text for Graphviz'
complete -c mgcall-why -n 'test (count (commandline -opc)) -eq 3' -l coverage -d 'what the service does, state by state'
complete -c mgcall-why -f -n 'test (count (commandline -opc)) -eq 3' -a '(__fish_complete_suffix .toml)' -d plan
complete -c mgcall-why -n 'test (count (commandline -opc)) -ge 3' -l ladder -d 'the messages of a run'
complete -c mgcall-why -n 'test (count (commandline -opc)) -ge 3' -l call -x -d 'one call of a plan'
complete -c mgcall-why -n 'test (count (commandline -opc)) -eq 3' -l strict -d 'status 1 for a yes with a warning'
complete -c mgcall-why -f -n 'test (count (commandline -opc)) -ge 2' -l quiet -d 'no note on the program, and no progress'
