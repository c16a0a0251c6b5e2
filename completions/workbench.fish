# Completions of workbench(1) for fish: put this file into ~/.config/fish/completions.

complete -c workbench -f

# Subcommands.
complete -c workbench -n __fish_use_subcommand -a run -d 'Answers each command of a transcript'
complete -c workbench -n __fish_use_subcommand -a check -d 'Says how much a declaration declares, or its first fault'
complete -c workbench -n __fish_use_subcommand -a list -d 'Lists what a declaration declares, a line each, or says its first fault'
complete -c workbench -n __fish_use_subcommand -a explain -d 'Explains the faulty lines of a declaration, or of a transcript'
complete -c workbench -n __fish_use_subcommand -a procedures -d 'Lists the procedures and the built-in compounds'
complete -c workbench -n __fish_use_subcommand -a help -d 'Prints the help, or that of a subcommand'

# Options.
complete -c workbench -n __fish_use_subcommand -s h -l help -d 'Print help'
complete -c workbench -n __fish_use_subcommand -s V -l version -d 'Print version'
complete -c workbench -n '__fish_seen_subcommand_from run check list explain procedures' -s h -l help -d 'Print help'

# Arguments.
complete -c workbench -n '__fish_seen_subcommand_from run check list explain' -F
complete -c workbench -n '__fish_seen_subcommand_from help' -a 'run check list explain procedures'
