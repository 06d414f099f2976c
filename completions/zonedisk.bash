# Completes the words of zonedisk in bash. The manual page says how to install this file.

_zonedisk_subcommands="format run nbd report check plan info export import convert rescue repair nvme entry fresh fresh-raw help"
_zonedisk_shape="--block --zones --size --capacity --transfer --active --open"
_zonedisk_states="Empty ImplicitlyOpened ExplicitlyOpened Closed ReadOnly Full Offline"

# The options of a subcommand.
_zonedisk_options() {
    case $1 in
        format) echo "--image --device --force --in-place $_zonedisk_shape" ;;
        run) echo "--image --device --blocks --zones --statistics --sync --read-only --progress --habit --stop-after --tear" ;;
        nbd) echo "--image --device --blocks --statistics --idle --read-only --habit --stop-after --tear --forget --odds --cut-after --fail --fail-odds" ;;
        report) echo "--image --device --state --brief --json --svg" ;;
        check) echo "--image --device --blocks --json" ;;
        plan) echo "--image $_zonedisk_shape --blocks --share --amplification --bytes --json --svg" ;;
        info) echo "--image --device --json" ;;
        export) echo "--image --device --first --count --progress" ;;
        import) echo "--image --device --blocks --first --sparse --progress" ;;
        convert) echo "--image --to" ;;
        rescue) echo "--image --device --blocks --to --json --progress" ;;
        repair) echo "--image --device --force" ;;
        nvme) echo "--image --device --explain --sync --habit" ;;
        entry) echo "--start --blocks --dwords --id --all --partial --state --data" ;;
        fresh) echo "$_zonedisk_shape --blocks --report --statistics --habit --stop-after --tear" ;;
        fresh-raw) echo "$_zonedisk_shape --habit" ;;
    esac
}

# The words that may come after two others: the subcommand, and the word before.
_zonedisk_words() {
    case $2 in
        --habit) echo "lazy closing strict" ;;
        --state) echo "$_zonedisk_states" ;;
        --block) echo "512 4096" ;;
        entry) echo "append read write flush close finish open reset offline report --help" ;;
        help) echo "$_zonedisk_subcommands" ;;
        --zones) if [ "$1" = run ]; then echo "$(_zonedisk_options run) --help"; fi ;;
        --size | --capacity | --transfer | --active | --open | --blocks | --share | --amplification | --bytes) ;;
        --first | --count | --stop-after | --tear | --start | --dwords | --id | --data) ;;
        --forget | --odds | --cut-after | --fail | --fail-odds) ;;
        *) echo "$(_zonedisk_options "$1") --help" ;;
    esac
}

_zonedisk() {
    local word=${COMP_WORDS[COMP_CWORD]} before=${COMP_WORDS[COMP_CWORD - 1]} words
    if [ "$COMP_CWORD" -eq 1 ]; then
        words="$_zonedisk_subcommands --help --version"
    elif [ "$before" = --image ] || [ "$before" = --device ] || [ "$before" = --to ]; then
        mapfile -t COMPREPLY < <(compgen -f -- "$word")
        return
    else
        words=$(_zonedisk_words "${COMP_WORDS[1]}" "$before")
    fi
    mapfile -t COMPREPLY < <(compgen -W "$words" -- "$word")
}

complete -o filenames -F _zonedisk zonedisk
