# Completion of simula and simula-show for fish: a command, then options of a run and a source.
complete -c simula -f
complete -c simula -n '__fish_use_subcommand' -a run -d 'Run a program'
complete -c simula -n '__fish_use_subcommand' -a check -d 'Name the first rule that it breaks'
complete -c simula -n '__fish_use_subcommand' -a compile -d 'Write its code as a code file'
complete -c simula -n '__fish_use_subcommand' -a exec -d 'Run a code file'
complete -c simula -n '__fish_use_subcommand' -a list -d 'Write its code as text'
complete -c simula -n '__fish_use_subcommand' -a print -d 'Write it in one layout'
complete -c simula -n '__fish_use_subcommand' -a gen -d 'Run a generated simulation of so many processes'
complete -c simula -n '__fish_use_subcommand' -a xref -d 'Say where each identifier is used'
complete -c simula -n '__fish_seen_subcommand_from run check compile list print xref' -a '(__fish_complete_suffix .sim)'
complete -c simula -n '__fish_seen_subcommand_from exec' -F
complete -c simula-show -f
complete -c simula-show -n '__fish_use_subcommand' -a run -d 'Run a program, with the cause of a message'
complete -c simula-show -n '__fish_use_subcommand' -a check -d 'Check a program, with the cause of a message'
complete -c simula-show -n '__fish_use_subcommand' -a explain -d 'What the manual says of a message'
complete -c simula-show -n '__fish_seen_subcommand_from run check' -a '(__fish_complete_suffix .sim)'
for program in simula simula-show
    complete -c $program -n '__fish_seen_subcommand_from run exec' -l storage -x -d 'Words of storage, 1000 to 50000000'
    complete -c $program -n '__fish_seen_subcommand_from run exec' -l ticks -x -d 'Ticks of the run'
    complete -c $program -n '__fish_seen_subcommand_from run exec' -l in-length -x -d 'Characters of a line of the input, to 10000'
    complete -c $program -n '__fish_seen_subcommand_from run exec' -l out-length -x -d 'Characters of a line of the output, to 10000'
end
