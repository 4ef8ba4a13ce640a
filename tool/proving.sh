# Shows which crate of how many is proved while rt works. Read in by ./list-slots and ./rsu-image.

# How many crates a crate is proved with: itself and all below it.
crate_count() { # CRATES.TXT CRATE
    awk -v wanted="$2" '
        { sub(/#.*/, "") }
        /:/ { at = index($0, ":"); split(substr($0, 1, at - 1), words, " "); below[words[1]] = substr($0, at + 1) }
        function visit(name,    parts, n, i) {
            if (!(name in below) || (name in seen)) return
            seen[name] = 1
            count++
            n = split(below[name], parts, " ")
            for (i = 1; i <= n; i++) visit(parts[i])
        }
        END { visit(wanted); print count + 0 }' "$1"
}

# The crates that rt's lines say are proved: `logic=proved` ends what is said of a crate, and `crate NAME:` names it before.
# rt says nothing of a crate whose library is there from an earlier proof.
proved_crates() { # LOG
    awk '/^crate [A-Za-z0-9_]+: / { sub(/:.*/, "", $2); name = $2 } /^logic=proved / && name != "" { print name; name = "" }' "$1"
}

# One line for each crate; on a terminal one line that changes, with the time so far.
show_proved() { # WHO COUNT LOG SHOWN BEGAN
    proved=$(proved_crates "$3" | wc -l)
    if [ -t 2 ]; then
        seconds=$(($(date +%s) - $5))
        last=$(proved_crates "$3" | tail -n 1)
        printf '\r%s: %s of %s crates proved%-20s %s min %02d s so far ' "$1" "$proved" "$2" "${last:+: $last}" \
            $((seconds / 60)) $((seconds % 60)) >&2
    elif [ "$proved" -gt "$4" ]; then
        proved_crates "$3" | awk -v who="$1" -v all="$2" -v shown="$4" -v upto="$proved" \
            'NR > shown && NR <= upto { printf "%s: %d of %d crates proved: %s\n", who, NR, all, $1 }' >&2
    fi
}

# Runs an rt command in a crate's folder, and shows how far it is. Its status is the command's.
prove() { # WHO ROOT CRATE LOG COMMAND...
    who=$1 log=$4 all=$(crate_count "$2/crates.txt" "$3") began=$(date +%s) proved=0
    echo "$who: proving up to $all crates, some minutes at first" >&2
    folder=$2/crates/$3
    shift 4
    : >"$log"
    (cd "$folder" && exec "$@") </dev/null >"$log" 2>&1 &
    rt_process=$!
    trap 'kill "$rt_process" 2>/dev/null; exit 130' INT TERM
    while kill -0 "$rt_process" 2>/dev/null; do
        show_proved "$who" "$all" "$log" "$proved" "$began"
        sleep 1
    done
    rt_status=0
    wait "$rt_process" || rt_status=$?
    trap - INT TERM
    show_proved "$who" "$all" "$log" "$proved" "$began"
    [ ! -t 2 ] || echo >&2
    return "$rt_status"
}
