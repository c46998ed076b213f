# Completion of kcsan_litmus for fish: copy this file to ~/.config/fish/completions/.
# It completes ./kcsan_litmus too. tests/options compares it with the help of the program.

set -l commands step run search join races replay show check help
set -l seen __fish_seen_subcommand_from
set -l litmus "$seen step run search races check"
set -l executing "$seen step run search races"
set -l coloring "$seen step run search join races replay check"

complete -c kcsan_litmus -f
complete -c kcsan_litmus -s h -l help -d 'Print help'
complete -c kcsan_litmus -n "not $seen $commands" -s V -l version -d 'Print the version'
complete -c kcsan_litmus -n "not $seen $commands" -a step -d 'Execute a program once, by a schedule'
complete -c kcsan_litmus -n "not $seen $commands" -a run -d 'Run a program on threads'
complete -c kcsan_litmus -n "not $seen $commands" -a search -d 'Explore the schedules of programs'
complete -c kcsan_litmus -n "not $seen $commands" -a join -d 'Join the parts of a search'
complete -c kcsan_litmus -n "not $seen $commands" -a races -d 'Say of each pair of accesses whether it races'
complete -c kcsan_litmus -n "not $seen $commands" -a replay -d 'Check whether a trace is true'
complete -c kcsan_litmus -n "not $seen $commands" -a show -d 'Draw a trace'
complete -c kcsan_litmus -n "not $seen $commands" -a check -d 'Say what litmus files mean'
complete -c kcsan_litmus -n "not $seen $commands" -a help -d 'Print the help of a command'
complete -c kcsan_litmus -n "$seen help" -a "$commands"
complete -c kcsan_litmus -n "$seen join replay show" -F
complete -c kcsan_litmus -n "$litmus" -ka '(__fish_complete_suffix .litmus)'

complete -c kcsan_litmus -n "$seen step check" -s s -l schedule -x -d 'Order of steps, as 0x7,1x9'
complete -c kcsan_litmus -n "$seen step run search join" -l where -d 'Say where each access of a report is'
complete -c kcsan_litmus -n "$seen step run search" -s o -l trace -rF -d 'Write the trace to this file'

complete -c kcsan_litmus -n "$coloring" -l color -xa 'auto always never' -d 'Colour the text'

complete -c kcsan_litmus -n "$seen run" -s r -l runs -x -d 'Number of runs'
complete -c kcsan_litmus -n "$seen run" -l delay -x -d 'Rounds that a watchpoint waits'
complete -c kcsan_litmus -n "$seen run" -l stop-at-first -d 'End after the first run with a report'
complete -c kcsan_litmus -n "$seen run" -l keep-going -d 'Count stuck runs, and go on'
complete -c kcsan_litmus -n "$seen run search races" -l jobs -x -d 'Number of parallel threads'

complete -c kcsan_litmus -n "$seen search" -l switches -xa all -d 'Preemptions at most'
complete -c kcsan_litmus -n "$seen search" -l reduce -xa 'yes no' -d 'Leave out states that tell nothing more'
complete -c kcsan_litmus -n "$seen search" -l part -x -d 'Search part I of N alone, as 1/16'
complete -c kcsan_litmus -n "$seen search races" -l limit -x -d 'Stop after so many states'
complete -c kcsan_litmus -n "$seen search races" -l seconds -x -d 'Stop after so many seconds'
complete -c kcsan_litmus -n "$seen search" -l format -xa 'text json csv herd' -d 'Format of the output'
complete -c kcsan_litmus -n "$seen search join" -l settings -d 'End with a line of the settings'
complete -c kcsan_litmus -n "$seen races" -l format -xa 'text json' -d 'Format of the output'
complete -c kcsan_litmus -n "$seen races" -l html -rF -d 'Write a page of HTML to this file'

complete -c kcsan_litmus -n "$litmus" -l place -x -d 'Addresses, as x=0x1000,c=0x10001'
complete -c kcsan_litmus -n "$litmus" -l slots -x -d 'Number of page slots'
complete -c kcsan_litmus -n "$litmus" -l word -xa '64 32' -d 'Bits of a watch word'
complete -c kcsan_litmus -n "$executing" -l skip -x -d 'Accesses skipped between two that are watched'
complete -c kcsan_litmus -n "$executing" -l randomize -d 'Draw each skip at random'
complete -c kcsan_litmus -n "$executing" -l seed -x -d 'Seed of the skips'
complete -c kcsan_litmus -n "$executing" -l strict -d 'No for both of the settings yes|no'
complete -c kcsan_litmus -n "$executing" -l value-change-only -xa 'yes no' -d 'Report changed values alone'
complete -c kcsan_litmus -n "$executing" -l plain-writes-atomic -xa 'yes no' -d 'Plain writes count as marked'
complete -c kcsan_litmus -n "$executing" -l unknown-origin -xa 'yes no' -d 'Print reports of unknown origin'
complete -c kcsan_litmus -n "$executing" -l kconfig -xka '(__fish_complete_suffix .config)' -d 'Settings of a kernel'
complete -c kcsan_litmus -n "$executing" -l turns -x -d 'Failed tries of a wait until a task is stuck'

complete -c kcsan_litmus -n "$seen show" -l source -rF -d 'Litmus file that the trace is of'
complete -c kcsan_litmus -n "$seen show" -l slots -d 'Tell the index of each watchpoint'
complete -c kcsan_litmus -n "$seen show" -s o -l svg -rF -d 'Write the picture to this file, as SVG'
complete -c kcsan_litmus -n "$seen show" -l ascii -d 'Draw with ASCII alone'

complete -c kcsan_litmus -n "$seen check" -l print -d 'Print the program of each file too'
complete -c kcsan_litmus -n "$seen check" -l calls -d 'List the calls that are accepted'
