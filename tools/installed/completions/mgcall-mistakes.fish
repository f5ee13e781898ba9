# Completions of mgcall-mistakes for fish: its options, and files by what stands at their place.

complete -c mgcall-mistakes -f
complete -c mgcall-mistakes -f -n 'test (count (commandline -opc)) -eq 1' -l help -d 'say what it does'
complete -c mgcall-mistakes -f -n 'test (count (commandline -opc)) -eq 1' -l version -d 'say which version it is'
complete -c mgcall-mistakes -f -n 'test (count (commandline -opc)) -eq 1' -a '(__fish_complete_suffix .toml)' -d script
complete -c mgcall-mistakes -f -n 'test (count (commandline -opc)) -eq 2' -a '(__fish_complete_suffix .json)' -d certificate
complete -c mgcall-mistakes -f -n 'test (count (commandline -opc)) -eq 3' -a '(__fish_complete_suffix .toml)' -d plan
complete -c mgcall-mistakes -n 'test (count (commandline -opc)) -ge 2' -l json -d 'as one JSON value'
complete -c mgcall-mistakes -f -n 'test (count (commandline -opc)) -ge 2' -l quiet -d 'no note on the program, and no progress'
complete -c mgcall-mistakes -r -l certificate -d 'a certificate without its script'
complete -c mgcall-mistakes -r -l plan -d 'a plan without its script'
