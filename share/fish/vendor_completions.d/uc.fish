# Made by scripts/words from scripts/words.toml. Change that table, and run scripts/words --write.
# fish completion for uc

complete -c uc -n __fish_use_subcommand -f -a prove -d 'searches for a proof of a goal'
complete -c uc -n __fish_use_subcommand -f -a decide -d 'answers ground equations \'s = t\' by the saturated axioms'
complete -c uc -n __fish_use_subcommand -f -a check -d 'replays a proof against its problem'
complete -c uc -n __fish_use_subcommand -f -a show -d 'prints the problem\'s clauses, includes resolved'
complete -c uc -n __fish_use_subcommand -f -a order -d 'tells how the order directs each axiom'
complete -c uc -n __fish_use_subcommand -f -a rewrite -d 'normalises a term by the axioms, step by step'
complete -c uc -n __fish_use_subcommand -f -a pairs -d 'prints the critical pairs of the axioms'
complete -c uc -n __fish_use_subcommand -f -a gen -d 'completes a generated problem'
complete -c uc -n __fish_use_subcommand -f -a table -d 'tells whether a finite table is a model: it satisfies the axioms and keeps each goal apart'
complete -c uc -n __fish_use_subcommand -f -a model -d 'searches for a finite table that is a model'
complete -c uc -n __fish_use_subcommand -f -a certify -d 'checks a certificate of saturation'
complete -c uc -n '__fish_seen_subcommand_from prove decide check show order rewrite pairs table model certify' -l root -d 'where an included file is looked for after the problem\'s own folder' -x -a '(__fish_complete_directories)'
complete -c uc -n '__fish_seen_subcommand_from prove decide order rewrite pairs' -l order -d 'the Knuth-Bendix order or the lexicographic path order' -x -a 'kbo lpo'
complete -c uc -n '__fish_seen_subcommand_from prove decide order rewrite pairs' -l precedence -d 'symbols, least first; those not named stand below, by number of arguments and first occurrence' -x
complete -c uc -n '__fish_seen_subcommand_from prove decide order rewrite pairs' -l weights -d 'weights of symbols under kbo; a symbol not named weighs --w0' -x
complete -c uc -n '__fish_seen_subcommand_from prove decide order rewrite pairs' -l w0 -d 'weight of a variable under kbo' -x
complete -c uc -n '__fish_seen_subcommand_from prove decide gen model' -l budget -d 'units of work: pairs joined, goals taken further, equations kept by an audit; of model, prefixes visited' -x
complete -c uc -n '__fish_seen_subcommand_from prove decide gen' -l pairs -d 'pairs that may wait' -x
complete -c uc -n '__fish_seen_subcommand_from prove decide gen' -l workers -d 'workers that search at once; with one, two runs print the same' -x
complete -c uc -n '__fish_seen_subcommand_from decide' -l steps -d 'rewrite steps that one question may take' -x
complete -c uc -n '__fish_seen_subcommand_from decide' -l system -d 'a certificate, checked as by certify, whose saturated system answers in the place of a search; no option of the order, no --budget and no --pairs stands beside it' -r -F
complete -c uc -n '__fish_seen_subcommand_from rewrite' -l limit -d 'rewrite steps' -x
complete -c uc -n '__fish_seen_subcommand_from model' -l size -d 'greatest size of a table' -x
complete -c uc -n '__fish_seen_subcommand_from prove' -l trace -d 'prints the history of the search after the answer'
complete -c uc -n '__fish_seen_subcommand_from prove' -l certificate -d 'prints a certificate after a saturated system, which certify checks'
