# Completions of aplcalc for fish.
complete -c aplcalc -f
complete -c aplcalc -l workers -x -d 'How many workers share the work, from 1 to 64'
complete -c aplcalc -l piece -x -d 'How many elements each piece of the work has, from 1 to 1048576'
complete -c aplcalc -l schedule -x -a 'claims deques' -d 'How the pieces come to the workers'
complete -c aplcalc -s h -l help -d 'Print help'
