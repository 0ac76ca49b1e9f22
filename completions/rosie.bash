# Completion of rosie for bash: commands, options, styles, classes, files, and names of packages in a pattern.

# No word passes through `compgen -W`, which expands what it is given: a file's name could run a command there. Names of
# packages are offered only where RPL can import them, and files by readline's own means or quoted.

# Prints what rosie lists, within two seconds where there is `timeout`: a file of the library path may be a pipe that
# nobody writes to.
_rosie_list() {
    local run=(command)
    command -v timeout >/dev/null 2>&1 && run+=(timeout 2)
    "${run[@]}" rosie list "$@" 2>/dev/null </dev/null | cut -d ' ' -f 1
}

# Prints the names that can continue a pattern, where NAME is begun: those of its package after a dot; otherwise the
# packages and the names that the roots bind. _rosie_names FOLDERS NAME [ROOT ..]
_rosie_names() {
    local folders=$1 name=$2 folder file
    shift 2
    if [[ $name == *.* ]]; then
        _rosie_list --libpath "$folders" --rpl "import ${name%%.*}"
        return
    fi
    [[ $# != 0 ]] && _rosie_list --libpath "$folders" "$@"
    while IFS= read -r -d : folder; do
        for file in "${folder:-/}"/*.rpl; do
            name=${file##*/} name=${name%.rpl}
            [[ -f $file && $name =~ ^[A-Za-z][A-Za-z0-9_]*$ ]] && printf '%s.\n' "$name"
        done
    done <<<"$folders:"
}

# Adds to COMPREPLY the names read from standard input that RPL can write and that begin with VALUE, each after BEFORE.
# _rosie_offer_names BEFORE VALUE
_rosie_offer_names() {
    local name
    while IFS= read -r name; do
        [[ $name =~ ^[A-Za-z][A-Za-z0-9_]*(\.[A-Za-z0-9_]*)?$ && $name == "$2"* ]] && COMPREPLY+=("$1$name")
    done
}

# Adds to COMPREPLY the files, or with KIND `directory` the folders, that begin with VALUE, each after BEFORE and quoted
# so that the shell reads one word. _rosie_offer_files BEFORE VALUE KIND
_rosie_offer_files() {
    local quote='' value=$2 file shown
    [[ $value == [\'\"]* ]] && quote=${value:0:1} value=${value:1}
    [[ -n $quote ]] || value=${value//\\/}
    for file in "$value"*; do
        [[ -d $file ]] && file+=/
        [[ -e $file || -L $file ]] || continue
        [[ $3 == directory && $file != */ ]] && continue
        case $quote in
            "'") [[ $file == *\'* ]] && continue; shown=$quote$file ;;
            '"') [[ $file == *[\"\$\`\\!]* ]] && continue; shown=$quote$file ;;
            *) printf -v shown %q "$file" ;;
        esac
        COMPREPLY+=("$1$shown")
    done
}

_rosie() {
    local IFS=$' \t\n' words=() rest=${COMP_LINE-} piece index
    # Bash cuts words at `=` and `:` too, where COMP_WORDBREAKS has them. Here they are put together again.
    for ((index = 0; index <= COMP_CWORD; index++)); do
        piece=${COMP_WORDS[index]}
        if [[ $index != 0 && $rest != [[:space:]]* && ($piece == [=:]* || ${words[-1]} == *[=:]) ]]; then
            words[-1]+=$piece
        else
            words+=("$piece")
        fi
        rest=${rest#"${rest%%[![:space:]]*}"}
        rest=${rest#"$piece"}
    done
    local word=${words[-1]} kept command='' count=0 wants='' ended='' coded='' fixed='' folders=. roots=() item
    unset 'words[-1]'
    # What stands of the word before the piece that is completed.
    [[ $piece == [=:]* ]] && piece=
    kept=${word%"$piece"}

    # The words before it: the command, the number of arguments after it, and the option that wants this word.
    for item in "${words[@]:1}"; do
        if [[ -n $wants ]]; then
            # The shell's quotes and backslashes are removed from a value; nothing in it is expanded.
            if [[ $item == \'*\' || $item == \"*\" ]]; then item=${item:1:-1}; else item=${item//\\/}; fi
            case $wants in
                --libpath) folders=$item ;;
                -f|--file) [[ -f $item ]] && roots+=("$wants" "$item") ;;
                --rpl) roots+=("$wants" "$item") ;;
            esac
            wants=
        elif [[ $item == *[\<\>] ]]; then
            wants=redirection
        elif [[ -z $ended && $item == -- ]]; then
            ended=yes
        elif [[ -z $ended && $item == -?* ]]; then
            case $item in
                -f|--file|--rpl|--libpath|-o|--output|--budget|--limit|--code-file) wants=$item ;;
            esac
            case $item in
                --code-file|--code-file=*) coded=yes ;;
                -F|--fixed-strings) fixed=yes ;;
                --libpath=*) folders=${item#*=} ;;
                --file=*) [[ -f ${item#*=} ]] && roots+=("$item") ;;
            esac
        elif [[ -z $command ]]; then
            command=$item
        else
            count=$((count + 1))
        fi
    done

    # `--output=js`: the value stands in the word itself.
    local value=$word before=''
    if [[ -z $wants && -z $ended && $word == --*=* ]]; then
        wants=${word%%=*} value=${word#*=} before=${word%%=*}=
    fi

    local offer='' files='' names=''
    if [[ -n $wants ]]; then
        case $wants in
            -o|--output) offer='json line matches subs data bool' ;;
            -f|--file|--code-file|redirection) files=default ;;
            --libpath) files=directory before+=${value%"${value##*:}"} value=${value##*:} ;;
        esac
    elif [[ -z $ended && $word == -* ]]; then
        local roots='-f --file --rpl --libpath' match='-o --output -w --wholefile -a --all --budget --steps'
        case $command in
            match) offer="$match --code-file" && [[ -z $coded ]] && offer+=" $roots -F --fixed-strings" ;;
            grep) offer="$roots -F --fixed-strings $match" ;;
            test) offer='--libpath --budget' ;;
            list) offer=$roots ;;
            expand) offer="$roots -F --fixed-strings --code" ;;
            trace) offer="$roots -F --fixed-strings -w --wholefile --limit" ;;
            compile) offer="$roots -F --fixed-strings" ;;
            repl) offer='--libpath' ;;
            sample) offer='--budget' ;;
            '') offer="$roots -F --fixed-strings $match --code-file --code --limit" ;;
        esac
    else
        case $command:$count in
            :*) offer='match grep test list expand trace sample repl compile class' ;;
            test:0) files=default ;;
            match:0) if [[ -n $coded ]]; then files=default; else names=yes; fi ;;
            grep:0|trace:0|expand:0|compile:0) names=yes ;;
            match:*|grep:[1-9]*|trace:[1-9]*) files=default ;;
            class:0) offer='alnum alpha blank cntrl digit graph lower print punct space upper xdigit' ;;
        esac
    fi

    if [[ -n $names && -z $fixed ]]; then
        # The name that the pattern ends with. A quote of the shell before the pattern isn't part of what readline
        # replaces.
        [[ $value == [\'\"]* ]] && value=${value:1}
        [[ $value =~ [A-Za-z][A-Za-z0-9_]*(\.[A-Za-z0-9_]*)?$ ]] || [[ -z $value ]] || names=
        item=${BASH_REMATCH[0]}
        [[ -n $names ]] && before=${value%"$item"} value=$item
        compopt -o nospace 2>/dev/null
    fi

    COMPREPLY=()
    if [[ -n $offer ]]; then
        # (`offer` has words of this file alone, without a character that the shell would read otherwise)
        for item in $offer; do
            [[ $item == "$value"* ]] && COMPREPLY+=("$before$item")
        done
    elif [[ -n $names && -z $fixed ]]; then
        _rosie_offer_names "$before" "$value" < <(_rosie_names "$folders" "$value" "${roots[@]}")
    elif [[ -n $files && $kept == "$before" ]]; then
        # Names of files are readline's own work: it knows quotes, `~` and folders.
        compopt -o "${files/directory/dirnames}" 2>/dev/null
    elif [[ -n $files ]]; then
        # Here readline would look for another name: `=` or `:` stands in the name, or isn't in COMP_WORDBREAKS.
        _rosie_offer_files "$before" "$value" "$files"
        compopt -o nospace 2>/dev/null
    fi
    COMPREPLY=("${COMPREPLY[@]#"$kept"}")
}
complete -F _rosie rosie
