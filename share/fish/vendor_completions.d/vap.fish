# made by tests/manual.py of the words of `vap --help`
complete -c vap -f
complete -c vap -n 'not __fish_seen_subcommand_from eval check image replay report kinds help' -a eval -d 'Evaluates a CEL expression and prints its value'
complete -c vap -n 'not __fish_seen_subcommand_from eval check image replay report kinds help' -a check -d 'Prints what a rule may charge, and what it answers for an object'
complete -c vap -n 'not __fish_seen_subcommand_from eval check image replay report kinds help' -a image -d 'Writes what an expression compiles to, or prints what an image holds'
complete -c vap -n 'not __fish_seen_subcommand_from eval check image replay report kinds help' -a replay -d 'Replays a stream of events and reviews and prints the answers'
complete -c vap -n 'not __fish_seen_subcommand_from eval check image replay report kinds help' -a report -d 'Prints which policies are accepted, at which kinds, and what they may charge'
complete -c vap -n 'not __fish_seen_subcommand_from eval check image replay report kinds help' -a kinds -d 'Writes the definitions of the kinds in an OpenAPI document'
complete -c vap -n 'not __fish_seen_subcommand_from eval check image replay report kinds help' -a help -d 'Print this message or the help of the given subcommand(s)'
complete -c vap -n 'not __fish_seen_subcommand_from eval check image replay report kinds help' -l help -s h -d 'Print help'
complete -c vap -n 'not __fish_seen_subcommand_from eval check image replay report kinds help' -l version -s V -d 'Print version'
complete -c vap -n '__fish_seen_subcommand_from eval' -l help -s h -d 'Print help'
complete -c vap -n '__fish_seen_subcommand_from check' -l help -s h -d 'Print help'
complete -c vap -n '__fish_seen_subcommand_from check' -F
complete -c vap -n '__fish_seen_subcommand_from image; and not __fish_seen_subcommand_from encode decode help' -a encode -d 'Writes the bytes of the image that a CEL expression compiles to'
complete -c vap -n '__fish_seen_subcommand_from image; and not __fish_seen_subcommand_from encode decode help' -a decode -d 'Verifies an image and prints what it holds, its bounds and what it evaluates to'
complete -c vap -n '__fish_seen_subcommand_from image; and not __fish_seen_subcommand_from encode decode help' -a help -d 'Print this message or the help of the given subcommand(s)'
complete -c vap -n '__fish_seen_subcommand_from image; and not __fish_seen_subcommand_from encode decode help' -l help -s h -d 'Print help'
complete -c vap -n '__fish_seen_subcommand_from image ; and __fish_seen_subcommand_from encode' -l help -s h -d 'Print help'
complete -c vap -n '__fish_seen_subcommand_from image ; and __fish_seen_subcommand_from decode' -l help -s h -d 'Print help'
complete -c vap -n '__fish_seen_subcommand_from image ; and __fish_seen_subcommand_from decode' -F
complete -c vap -n '__fish_seen_subcommand_from replay' -l workers -x -a '' -d 'How many workers judge side by side, from 1 to 16 [default: 1]'
complete -c vap -n '__fish_seen_subcommand_from replay' -l audit -d 'Prints a line for each review at the end'
complete -c vap -n '__fish_seen_subcommand_from replay' -l summary -d 'Prints a table to standard error at the end: what each policy found'
complete -c vap -n '__fish_seen_subcommand_from replay' -l help -s h -d 'Print help'
complete -c vap -n '__fish_seen_subcommand_from replay' -F
complete -c vap -n '__fish_seen_subcommand_from report' -l output -x -a 'text json' -d 'For people, or one JSON document for machines [default: text] [possible values: text, json]'
complete -c vap -n '__fish_seen_subcommand_from report' -l help -s h -d 'Print help'
complete -c vap -n '__fish_seen_subcommand_from report' -F
complete -c vap -n '__fish_seen_subcommand_from kinds' -l help -s h -d 'Print help'
complete -c vap -n '__fish_seen_subcommand_from kinds' -F
