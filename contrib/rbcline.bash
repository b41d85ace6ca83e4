# Completion of rbcline in bash: source this file. Made by `.ci/names --write` from crates/cli_commands/src/forms.rt
_rbcline() {
    local word="${COMP_WORDS[COMP_CWORD]}" options="--help"
    local commands="check explain run script test storm demo serve drive trains tell print audit watch words decode encode picture pcap help --help --version"
    if [ "$COMP_CWORD" = 1 ]; then
        mapfile -t COMPREPLY < <(compgen -W "$commands" -- "$word")
        return
    fi
    case "${COMP_WORDS[COMP_CWORD - 1]}" in
    --journal | --resume | --keep)
        compopt -o filenames
        mapfile -t COMPREPLY < <(compgen -d -- "$word")
        return
        ;;
    --trains | --loss | --seed | --events | --page | --page | --page-address | --address | --notes | --rate | --burst | --timeout | --trains | --loss | --late | --seed | --seconds | --timeout | --message | --since | --until | --from | --to | --since | --until | --train | --port) return ;;
    esac
    if [[ "$word" == --* ]]; then
        case "${COMP_WORDS[1]}" in
        demo) options+=" --script --trains --loss --seed --events --page" ;;
        serve) options+=" --quiet --journald --tell --life --bind --no-sync --no-print --page --page-address --address --control --notes --rate --burst --journal --resume --keep" ;;
        drive) options+=" --timeout" ;;
        trains) options+=" --no-release --trains --loss --late --seed --seconds" ;;
        tell) options+=" --timeout" ;;
        words) options+=" --message --numbers --times --since --until" ;;
        decode) options+=" --frame --json" ;;
        encode) options+=" --frame" ;;
        picture) options+=" --html --time --from --to --since --until --train" ;;
        pcap) options+=" --port" ;;
        esac
        mapfile -t COMPREPLY < <(compgen -W "$options" -- "$word")
        return
    fi
    compopt -o filenames
    mapfile -t COMPREPLY < <(compgen -f -- "$word")
}
complete -F _rbcline rbcline ./rbcline
