# bash completion for land, land-setup and land-backup
_land() {
    local cur=${COMP_WORDS[COMP_CWORD]} prev=${COMP_WORDS[COMP_CWORD - 1]}
    case $prev in
        --file)
            compopt -o filenames
            mapfile -t COMPREPLY < <(compgen -f -- "$cur")
            return
            ;;
        --role)
            mapfile -t COMPREPLY < <(compgen -W 'citizen conveyancer notary bank certifiedSurveyor stateAdministrator' -- "$cur")
            return
            ;;
        --kind)
            mapfile -t COMPREPLY < <(compgen -W 'party unit parcel rrr source mutation' -- "$cur")
            return
            ;;
        --clock | --at | --port | --party | --connections | --at-once) return ;;
    esac
    local words=
    case $COMP_CWORD-${COMP_WORDS[1]} in
        1-*) words='talk new serve check migrate extract digest help --help --version' ;;
        2-help) words='talk new serve check migrate extract digest' ;;
        *-talk) words='--clock --help' ;;
        *-new | *-check | *-migrate) words='--file --help' ;;
        *-serve) words='--file --port --connections --at-once --help' ;;
        *-extract) words='--file --clock --party --role --kind --at --help' ;;
        *-digest) words='--file --at --help' ;;
    esac
    mapfile -t COMPREPLY < <(compgen -W "$words" -- "$cur")
}
complete -F _land land
