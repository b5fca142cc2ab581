# Completes the arguments of wat_tokens in fish.
set -l commands list sig play blank fmt module types help

complete -c wat_tokens -n "not __fish_seen_subcommand_from $commands" -a list -d 'List all tokens'
complete -c wat_tokens -n "not __fish_seen_subcommand_from $commands" -a sig -d 'List the significant tokens'
complete -c wat_tokens -n "not __fish_seen_subcommand_from $commands" -a play -d 'List the replies of a parser to calls'
complete -c wat_tokens -n "not __fish_seen_subcommand_from $commands" -a blank -d 'Replace comments by spaces'
complete -c wat_tokens -n "not __fish_seen_subcommand_from $commands" -a fmt -d 'Format the text'
complete -c wat_tokens -n "not __fish_seen_subcommand_from $commands" -a module -d 'Compile a module'
complete -c wat_tokens -n "not __fish_seen_subcommand_from $commands" -a types -d 'Compile a module of function types'
complete -c wat_tokens -n "not __fish_seen_subcommand_from $commands" -a help -d 'Write a summary'

complete -c wat_tokens -n '__fish_seen_subcommand_from fmt' -l check -d 'List files that are not formatted'
complete -c wat_tokens -n '__fish_seen_subcommand_from fmt' -l diff -d 'Write the lines that differ'
complete -c wat_tokens -n '__fish_seen_subcommand_from fmt' -l write -d 'Rewrite the files'
complete -c wat_tokens -n '__fish_seen_subcommand_from module types' -s o -l output -r -F -d 'Write the binary to this file'
complete -c wat_tokens -n '__fish_seen_subcommand_from module' -l no-names -d 'Write neither name section nor custom sections'
complete -c wat_tokens -n '__fish_seen_subcommand_from module' -l no-validate -d 'Write modules that are not valid, too'
complete -c wat_tokens -n '__fish_seen_subcommand_from play' -f -a 'look take comment reg= unreg= parens='

complete -c wat_tokens -l json -d 'Write tokens and errors as lines of JSON'
complete -c wat_tokens -l file -r -F -d 'Read this file'
complete -c wat_tokens -l allow-confusing -d 'Accept confusing characters'
complete -c wat_tokens -l strict-underscores -d 'Reject doubled underscores in \\u{..}'
complete -c wat_tokens -s h -l help -d 'Write a summary'
complete -c wat_tokens -s V -l version -d 'Write the version'
