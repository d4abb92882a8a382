# fish completion for check-image
complete -c check-image -f -a '(__fish_complete_directories)'
complete -c check-image -l manifest -r -F -d 'Compare with this manifest'
complete -c check-image -l exclude -x -d 'Leave out what the shell pattern matches'
complete -c check-image -l one-file-system -d 'List directories of other file systems without content'
complete -c check-image -l help -d 'Show the help text'
