# Completions of `ccq` for fish.
set -l commands play audit judge show drive
complete -c ccq -n "not __fish_seen_subcommand_from $commands help" -f
complete -c ccq -n "not __fish_seen_subcommand_from $commands help" -s V -l version -d 'print the version'
complete -c ccq -s h -l help -d 'print help'
complete -c ccq -n __fish_use_subcommand -a play -d 'play a plan and write the report of its whole history'
complete -c ccq -n __fish_use_subcommand -a audit -d 'audit receipts and write the verdict on them'
complete -c ccq -n __fish_use_subcommand -a judge -d 'judge whether the calls of a log are linearizable'
complete -c ccq -n __fish_use_subcommand -a show -d 'show the run of a plan as a page or a trace'
complete -c ccq -n __fish_use_subcommand -a drive -d 'drive a queue by threads and audit their receipts'
complete -c ccq -n __fish_use_subcommand -a help -d 'print the help of a command'
complete -c ccq -n '__fish_seen_subcommand_from help' -f -a "$commands"
complete -c ccq -n '__fish_seen_subcommand_from judge' -l follow -d 'judge in parts while the log is read'
complete -c ccq -n '__fish_seen_subcommand_from judge' -l page -d 'write a page that draws the calls'
complete -c ccq -n '__fish_seen_subcommand_from judge' -l times -d 'judge by times alone, for a coarse clock'
complete -c ccq -n '__fish_seen_subcommand_from judge' -x -l capacity -d 'items that the queue holds, 1 to 4294967295'
complete -c ccq -n '__fish_seen_subcommand_from judge' -x -l skew -d 'by how much clocks may differ'
complete -c ccq -n '__fish_seen_subcommand_from judge' -x -l from -d 'the time from which on the log is judged'
complete -c ccq -n '__fish_seen_subcommand_from judge' -x -l until -d 'the time until which the log is judged'
complete -c ccq -n '__fish_seen_subcommand_from show' -l trace -d 'write a line of JSON for each event'
complete -c ccq -n '__fish_seen_subcommand_from drive' -f
complete -c ccq -n '__fish_seen_subcommand_from drive' -x -l senders -d 'threads that send, 1 to 63'
complete -c ccq -n '__fish_seen_subcommand_from drive' -x -l receivers -d 'threads that take, 1 to 64'
complete -c ccq -n '__fish_seen_subcommand_from drive' -x -l items -d 'items that each sender sends, 0 to 1000000'
complete -c ccq -n '__fish_seen_subcommand_from drive' -x -l capacity -d 'items that may wait in the queue, 1 to 4096'
complete -c ccq -n '__fish_seen_subcommand_from drive' -x -l bound -d 'calls that one combiner serves in a row, 1 to 1024'
