# Completions of mgexplain for fish: files by what stands at their place, and the words of its command line.

complete -c mgexplain -f
complete -c mgexplain -f -n 'test (count (commandline -opc)) -eq 1' -a '(__fish_complete_suffix .toml)' -d script
complete -c mgexplain -f -n 'test (count (commandline -opc)) -eq 2' -a '(__fish_complete_suffix .json)' -d certificate
complete -c mgexplain -f -n 'test (count (commandline -opc)) -eq 3' -a '(__fish_complete_suffix .toml)' -d plan
complete -c mgexplain -l json -d 'the facts as one JSON value'
complete -c mgexplain -l call -x -d 'one call of a plan'
complete -c mgexplain -l strict -d 'status 1 for a yes with a warning'
complete -c mgexplain -n 'test (count (commandline -opc)) -eq 1' -s h -l help -d 'say how it is called'
complete -c mgexplain -n 'test (count (commandline -opc)) -eq 1' -l version -d 'say which version it is'
