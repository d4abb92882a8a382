# bash completion for ldconfig-image, image-manifest, update-image and check-image
_ldconfig_image() {
    local command=${1##*/} current=$2 previous=$3 words=
    COMPREPLY=()
    case $command:$previous in
    ldconfig-image:--abi) words='i386 x86-64 x32 aarch64 arm-hf riscv64-d' ;;
    ldconfig-image:--caps) words='x86-64-v2 x86-64-v3 x86-64-v4' ;;
    *:--manifest | *:-o | *:--aux-cache) compopt -o filenames; mapfile -t COMPREPLY < <(compgen -f -- "$current"); return ;;
    ldconfig-image:-C) [ "${COMP_WORDS[1]}" != -p ] || mapfile -t COMPREPLY < <(compgen -f -- "$current"); return ;;
    ldconfig-image:-r) compopt -o filenames; mapfile -t COMPREPLY < <(compgen -d -- "$current"); return ;;
    *:--exclude | *:--contents | *:--device | *:--tag | *:--platform | *:--library-path | ldconfig-image:-f) return ;;
    esac
    if [ -z "$words" ]; then
        case $command:$current in
        ldconfig-image:*)
            if [ "$COMP_CWORD" = 1 ]; then
                words='-r -n update batch layers sample print -p lookup resolve --help'
            else
                case ${COMP_WORDS[1]} in
                -n)
                    words='-r -X -v --aux-cache -i --check'
                    case $current in -*) ;; *) compopt -o filenames; mapfile -t COMPREPLY < <(compgen -d -- "$current"); return ;; esac
                    ;;
                -r) words='-n -N -X -f -C -v --aux-cache -i --check' ;;
                update | batch) words='--tag' ;;
                print) words='--json -r' ;;
                -p) words='-r -C' ;;
                lookup) words='--abi --caps --json -r' ;;
                resolve) words='--all --caps --library-path --platform --secure --list -0 --json --tree -r' ;;
                esac
            fi
            ;;
        image-manifest:-*) words='-o --identities --contents --device --exclude --one-file-system --no-one-file-system --help' ;;
        update-image:-*) words='--dry-run --manifest --exclude --one-file-system --links-only --cache-only --verbose --help' ;;
        check-image:-*) words='--manifest --exclude --one-file-system --help' ;;
        *) compopt -o filenames; mapfile -t COMPREPLY < <(compgen -d -- "$current"); return ;;
        esac
    fi
    mapfile -t COMPREPLY < <(compgen -W "$words" -- "$current")
}
complete -F _ldconfig_image ldconfig-image image-manifest update-image check-image
