# Completions of mgcall for fish: the words of its command line.

complete -c mgcall -f
complete -c mgcall -n 'test (count (commandline -opc)) -eq 1' -a check -d 'check a script with its certificate'
complete -c mgcall -n 'test (count (commandline -opc)) -eq 1' -a run -d 'run a plan of calls'
complete -c mgcall -n '__fish_seen_subcommand_from check' -x -l pieces -d 'in how many pieces the certificate is checked'
complete -c mgcall -n '__fish_seen_subcommand_from run' -x -l workers -d 'on how many workers the plan is run'
