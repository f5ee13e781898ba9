# Completions of mgcall-trace for fish: its options, and files by what stands at their place.

complete -c mgcall-trace -f
complete -c mgcall-trace -f -n 'test (count (commandline -opc)) -eq 1' -l help -d 'say what it does'
complete -c mgcall-trace -f -n 'test (count (commandline -opc)) -eq 1' -l version -d 'say which version it is'
complete -c mgcall-trace -f -n 'test (count (commandline -opc)) -eq 1' -a '(__fish_complete_suffix .toml)' -d script
complete -c mgcall-trace -f -n 'test (count (commandline -opc)) -eq 2' -a '(__fish_complete_suffix .json)' -d certificate
complete -c mgcall-trace -f -n 'test (count (commandline -opc)) -eq 3' -a '(__fish_complete_suffix .toml)' -d plan
complete -c mgcall-trace -n 'test (count (commandline -opc)) -ge 4' -l call -x -d 'one call of a plan'
complete -c mgcall-trace -n 'test (count (commandline -opc)) -ge 4' -l messages -r -d 'each message in a file of its own'
complete -c mgcall-trace -n 'test (count (commandline -opc)) -ge 4' -l pcap -r -d 'a capture for Wireshark'
complete -c mgcall-trace -f -n 'test (count (commandline -opc)) -ge 2' -l quiet -d 'no note on the program, and no progress'
