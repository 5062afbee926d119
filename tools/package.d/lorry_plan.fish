# Completion of lorry_plan for fish: commands, options, folders, and the vehicles and files of the folder that was named.

# The values of the command so far, one to a line; the word behind an option is its value.
function __lorry_plan_values
    set -l skip 0
    for word in (commandline -opc)[3..-1]
        if test $skip = 1
            set skip 0
        else if string match -q -- '--*=*' $word
            continue
        else if string match -q -- '--*' $word
            set skip 1
        else
            echo $word
        end
    end
end

# Whether the value of this number comes next, of one of these commands.
function __lorry_plan_next
    test (count (__lorry_plan_values)) -eq (math $argv[1] - 1)
    and __fish_seen_subcommand_from $argv[2..-1]
end

function __lorry_plan_folder
    set -l values (__lorry_plan_values)
    string replace -r '^~(?=/|$)' $HOME -- $values[1]
end

function __lorry_plan_vehicles
    echo any
    set -l table (__lorry_plan_folder)/vehicles.csv
    test -r $table
    and tail -n +2 $table | cut -d , -f 1 | tr -d '"\r'
end

# The files of the folder whose names end so.
function __lorry_plan_files
    for path in (__lorry_plan_folder)/*
        string match -q -- "*$argv[1]" $path
        and test -f $path
        and string replace -r '.*/' '' -- $path
    end
end

complete -c lorry_plan -f
complete -c lorry_plan -n __fish_use_subcommand -a plan -d 'print the Pareto front of a trip'
complete -c lorry_plan -n __fish_use_subcommand -a check -d 'judge a certificate'
complete -c lorry_plan -n __fish_use_subcommand -a bans -d 'print when a road is closed to a vehicle'
complete -c lorry_plan -n __fish_use_subcommand -a batch -d 'plan the trips of a table'
complete -c lorry_plan -n __fish_use_subcommand -a gen -d 'draw a network from a number'
complete -c lorry_plan -n __fish_use_subcommand -a latest -d 'print how late a trip may leave'
complete -c lorry_plan -n __fish_use_subcommand -a tour -d 'plan a trip with stops'
complete -c lorry_plan -n __fish_use_subcommand -a breaks -d 'plan a trip with driver breaks'
complete -c lorry_plan -n __fish_use_subcommand -a explain -d 'say why an itinerary is unlawful, or which pair is better'
complete -c lorry_plan -n '__lorry_plan_next 1 plan check bans batch gen latest tour breaks explain' -a '(__fish_complete_directories)'
complete -c lorry_plan -n '__lorry_plan_next 2 plan check bans latest tour breaks explain' -a '(__lorry_plan_vehicles)'
complete -c lorry_plan -n '__lorry_plan_next 2 batch' -a '(__lorry_plan_files .csv)' -d 'table of jobs'
complete -c lorry_plan -n '__lorry_plan_next 7 check' -a '(__lorry_plan_files .cert)' -d certificate
complete -c lorry_plan -n '__lorry_plan_next 7 tour' -a '(__lorry_plan_files .csv)' -d 'table of stops'
complete -c lorry_plan -n '__lorry_plan_next 7 explain' -a '(__lorry_plan_files "")' -d itinerary
complete -c lorry_plan -n '__fish_seen_subcommand_from plan' -l form -x -a 'plain table csv json' -d 'the form of the report'
complete -c lorry_plan -n '__fish_seen_subcommand_from plan' -l certificate -x -a '(__lorry_plan_files .cert)' -d 'write a certificate into the folder'
complete -c lorry_plan -n '__fish_seen_subcommand_from batch' -l workers -x -d 'how many plan at once'
complete -c lorry_plan -n '__fish_seen_subcommand_from tour' -l drive -x -d 'the most minutes of driving since a break'
complete -c lorry_plan -n '__fish_seen_subcommand_from tour' -l rest -x -d 'the minutes of a break'
complete -c lorry_plan -n '__fish_seen_subcommand_from breaks' -l drive -x -d 'the most minutes of driving since a break'
complete -c lorry_plan -n '__fish_seen_subcommand_from breaks' -l rest -x -d 'the minutes of a break'
