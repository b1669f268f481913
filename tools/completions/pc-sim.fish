# Completions of pc-sim for fish. Source this file, or put it where fish looks for files:
#     cp tools/completions/pc-sim.fish ~/.config/fish/completions/

set -l commands replay explain draw run session lab
set -l policies levels fifo least-ran levels-then-least-ran

complete -c pc-sim -f
complete -c pc-sim -n "not __fish_seen_subcommand_from $commands" -a replay -d "Answers each command of a script"
complete -c pc-sim -n "not __fish_seen_subcommand_from $commands" -a explain -d "Explains a script line by line"
complete -c pc-sim -n "not __fish_seen_subcommand_from $commands" -a draw -d "Draws a script as SVG"
complete -c pc-sim -n "not __fish_seen_subcommand_from $commands" -a run -d "Runs agents by settings"
complete -c pc-sim -n "not __fish_seen_subcommand_from $commands" -a session -d "Answers commands as they come"
complete -c pc-sim -n "not __fish_seen_subcommand_from $commands" -a lab -d "Compares policies on a load"
complete -c pc-sim -n "not __fish_seen_subcommand_from $commands" -s V -l version -d "Tells the version"
complete -c pc-sim -s h -l help -d "Tells what there is"
complete -c pc-sim -n "__fish_seen_subcommand_from run" -l per-cpu -d "Also reports a line for each CPU"
complete -c pc-sim -n "__fish_seen_subcommand_from run" -l draw -d "Draws the report as SVG"
complete -c pc-sim -n "__fish_seen_subcommand_from run" -l limit -x -d "Gives the run up after so many seconds"
complete -c pc-sim -n "__fish_seen_subcommand_from run" -l policy -x -a "$policies" -d "Runs and steals threads by this policy"
complete -c pc-sim -n "__fish_seen_subcommand_from run" -l script -r -F -d "Also writes the run as a script into this file"
complete -c pc-sim -n "__fish_seen_subcommand_from run" -l seed -x -d "Draws whose step is next by this number"
complete -c pc-sim -n "__fish_seen_subcommand_from run" -l runs -x -d "Tries so many seeds, and tallies how runs end"
complete -c pc-sim -n "__fish_seen_subcommand_from session" -l explain -d "Also explains each line"
complete -c pc-sim -n "__fish_seen_subcommand_from draw" -l cpus -x -d "Draws the lanes of these CPUs alone"
complete -c pc-sim -n "__fish_seen_subcommand_from draw" -l lines -x -d "Draws what happens at these lines alone"
complete -c pc-sim -n "__fish_seen_subcommand_from draw" -l time -d "Draws time by the script's ticks"
complete -c pc-sim -n "__fish_seen_subcommand_from lab" -l variants -r -F -d "Tries the variants of this text"
complete -c pc-sim -n "__fish_seen_subcommand_from lab" -l per-cpu -d "Also tells the time of each CPU"
complete -c pc-sim -n "__fish_seen_subcommand_from lab" -l csv -d "Writes the table for other tools"
complete -c pc-sim -n "__fish_seen_subcommand_from lab" -l picture -d "Draws how long threads waited"
complete -c pc-sim -n "__fish_seen_subcommand_from lab" -l script -x -d "Writes the run of this variant as a script"
complete -c pc-sim -n "__fish_seen_subcommand_from replay explain draw session" -k -a "(__fish_complete_suffix .script)"
complete -c pc-sim -n "__fish_seen_subcommand_from run lab" -k -a "(__fish_complete_suffix .toml)"
