# Completion of the command flow-from-grc for fish.

complete -c flow-from-grc -f
complete -c flow-from-grc -k -a '(__fish_complete_suffix .grc)'
complete -c flow-from-grc -s h -l help -d 'Print help'
complete -c flow-from-grc -s o -l output -r -F -d 'Write the graph file there, and not to standard output'
