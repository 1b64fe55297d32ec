# Bash completion for `audit`: `source packaging/completion.bash`.
_audit() {
    local word=${COMP_WORDS[COMP_CWORD]} before=${COMP_WORDS[COMP_CWORD - 1]} command=${COMP_WORDS[1]}
    local commands="replay format append close rotate show prove check note export salvage verify disclose serve loop daemon stop send ask watch read help"
    local valued="--mode --long --expect --reserve --until-free --sessions --socket-mode --reader --writer --idle --backlog --window --timeout --every --kind --events --from --save --first --under --receipts --retry --extends --after --within --proof"
    local options="--explain --no-progress --help" choices= files= place=0 question= index
    [[ $command = verify || $command = read ]] || valued="$valued --text"
    [[ $command != rotate ]] || valued="$valued --link"
    # Which word of the command this is: options and their values aren't counted.
    for ((index = 2; index < COMP_CWORD; index++)); do
        if [[ " $valued " == *" ${COMP_WORDS[index]} "* ]]; then
            index=$((index + 1))
            # A colon parts the words of bash.
            [[ ${COMP_WORDS[index + 1]} != : ]] || index=$((index + 2))
        elif [[ ${COMP_WORDS[index]} != -* ]]; then
            place=$((place + 1))
            [ "$place" -ne 2 ] || question=${COMP_WORDS[index]}
        fi
    done
    case $command in
    format) options="$options --mode --in-place --erase" ;;
    append) options="$options --text --follow --long --expect --reserve --extends" ;;
    rotate) options="$options --prepared --link --after --extends" ;;
    show) options="$options --free --read-only --header" ;;
    prove) options="$options --read-only" ;;
    check) options="$options --print --key --text --json --link" ;;
    verify) options="$options --text --numbers --json --kind --from --save --disclosed" ;;
    disclose) options="$options --kind --events" ;;
    export) options="$options --from --read-only --salvage" ;;
    salvage) options="$options --proof --under --within" ;;
    serve) options="$options --sessions --socket-mode" ;;
    loop) options="$options --socket-mode" ;;
    daemon) options="$options --reader --writer --allow-close --idle --backlog --reserve --until-free --socket-mode --extends" ;;
    send) options="$options --text --long --window --until-refused --placed --from --receipts --retry --timeout" ;;
    ask) options="$options --from --timeout" ;;
    watch) options="$options --every --timeout --quiet --after" ;;
    read) options="$options --first --under --text --numbers --json --kind --every --timeout" ;;
    help) options= ;;
    esac
    if [ "$COMP_CWORD" -eq 1 ]; then
        choices="$commands --help --version"
    elif [[ $before = : && ${COMP_WORDS[COMP_CWORD - 3]} = --writer ]]; then
        files=1
    elif [[ " $valued " == *" $before "* ]]; then
        case $before in
        --reader | --save | --first | --under | --receipts | --extends | --link | --after | --proof) files=1 ;;
        --long) choices="cut refuse" ;;
        --mode | --socket-mode) choices="600 640 660" ;;
        esac
    elif [[ $word == -* ]]; then
        choices=$options
    else
        case $command:$place:$question in
        format:[02]: | format:2:* | append:0: | close:0: | rotate:[01]: | rotate:3:* | show:0: | check:0: | export:[01]: | salvage:[0-2]: | \
            verify:[01]: | disclose:[01]: | disclose:3:* | serve:[01]: | loop:[01]: | daemon:[01]: | stop:0: | send:0: | watch:[01]: | watch:2:* | read:[01]: | prove:0: | ask:0: | \
            prove:4:* | ask:2:export | ask:3:entry | ask:4:member | ask:4:increment) files=1 ;;
        prove:1:) choices="member increment" ;;
        ask:1:) choices="commitment state place entry member increment export close" ;;
        help:0:) choices=$commands ;;
        esac
    fi
    if [ -n "$files" ]; then
        # Names are quoted, and folders end in a slash.
        compopt -o filenames 2>/dev/null
        mapfile -t COMPREPLY < <(compgen -f -- "$word")
    else
        mapfile -t COMPREPLY < <(compgen -W "$choices" -- "$word")
    fi
}
complete -F _audit audit
