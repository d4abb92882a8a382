# fish completion for ldconfig-image
function __ldconfig_image_updates
    __fish_contains_opt -s r; or __fish_contains_opt -s n
end
function __ldconfig_image_needs_command
    __fish_use_subcommand; and not __ldconfig_image_updates; and not __fish_contains_opt -s p
end
complete -c ldconfig-image -f
complete -c ldconfig-image -n __ldconfig_image_needs_command -s r -x -a '(__fish_complete_directories)' -d 'Update the image in a directory'
complete -c ldconfig-image -n __ldconfig_image_needs_command -s n -d 'Make the links of these directories, and no cache'
complete -c ldconfig-image -n '__fish_contains_opt -s n' -a '(__fish_complete_directories)'
complete -c ldconfig-image -n '__fish_contains_opt -s n' -s r -x -a '(__fish_complete_directories)' -d 'The directory that they are below'
complete -c ldconfig-image -n __ldconfig_image_updates -s N -d 'Make no cache'
complete -c ldconfig-image -n '__ldconfig_image_updates; or __fish_contains_opt -s p' -s C -r -F -d 'Path of the cache'
complete -c ldconfig-image -n '__fish_seen_subcommand_from print lookup resolve; or __fish_contains_opt -s p' -s r -x -a '(__fish_complete_directories)' -d 'Ask the cache of a directory'
complete -c ldconfig-image -n __ldconfig_image_updates -s f -x -d 'Path of the conf file in the image'
complete -c ldconfig-image -n __ldconfig_image_updates -s v -d 'List directories and libraries'
complete -c ldconfig-image -n __ldconfig_image_updates -l aux-cache -r -F -d 'File that keeps what libraries are'
complete -c ldconfig-image -n __ldconfig_image_updates -s i -d 'Do not read that file'
complete -c ldconfig-image -n __ldconfig_image_updates -l check -d 'List what would change'
complete -c ldconfig-image -n __ldconfig_image_needs_command -l help -d 'Print the usage text'
complete -c ldconfig-image -n __ldconfig_image_updates -s X -d 'Make no links'
complete -c ldconfig-image -n __ldconfig_image_needs_command -a update -d 'Plan links and write the cache'
complete -c ldconfig-image -n __ldconfig_image_needs_command -a batch -d 'Take edits and updates from the input'
complete -c ldconfig-image -n __ldconfig_image_needs_command -a layers -d 'Update the image that layers make'
complete -c ldconfig-image -n __ldconfig_image_needs_command -a sample -d 'Update synthetic images in memory'
complete -c ldconfig-image -n __ldconfig_image_needs_command -a print -d 'Print the cache'
complete -c ldconfig-image -n __ldconfig_image_needs_command -s p -d 'Print the cache'
complete -c ldconfig-image -n __ldconfig_image_needs_command -a lookup -d 'Print the path that the loader takes for a name'
complete -c ldconfig-image -n __ldconfig_image_needs_command -a resolve -d 'List the libraries that programs load'
complete -c ldconfig-image -n '__fish_seen_subcommand_from update batch' -l tag -x -d 'Number in the names of temporary files'
complete -c ldconfig-image -n '__fish_seen_subcommand_from lookup' -l abi -x -a 'i386 x86-64 x32 aarch64 arm-hf riscv64-d' -d 'ABI of the program'
complete -c ldconfig-image -n '__fish_seen_subcommand_from lookup resolve' -l caps -x -d 'Hwcaps names between colons'
complete -c ldconfig-image -n '__fish_seen_subcommand_from resolve' -l all -d 'List all programs and libraries'
complete -c ldconfig-image -n '__fish_seen_subcommand_from resolve' -l library-path -x -d 'Directories between colons'
complete -c ldconfig-image -n '__fish_seen_subcommand_from resolve' -l platform -x -d 'Value of $PLATFORM'
complete -c ldconfig-image -n '__fish_seen_subcommand_from resolve' -l secure -d 'As in secure execution'
complete -c ldconfig-image -n '__fish_seen_subcommand_from resolve' -l list -d 'List the files that the programs need'
complete -c ldconfig-image -n '__fish_seen_subcommand_from resolve' -s 0 -d 'End the paths of a list by NUL'
complete -c ldconfig-image -n '__fish_seen_subcommand_from print lookup resolve' -l json -d 'Write JSON'
complete -c ldconfig-image -n '__fish_seen_subcommand_from resolve' -l tree -d 'Write trees'
