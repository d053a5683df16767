# proving.sh: what the scripts that prove share. It is read by them and does nothing by itself. A script has `top`, the
# repository's top folder, and `say`, which tells its user something on standard error.
# shellcheck shell=sh disable=SC2154

has() { command -v "$1" >/dev/null 2>&1; }

# What is proved and built, as one hash. What rt leaves in a crate's out/ is no source.
sources_hash() {
    (cd "$top" && { sha256sum crates.txt VERSION && find crates include -type f ! -path '*/__pycache__/*' ! -path 'crates/*/out/*' -exec sha256sum {} +; } |
        LC_ALL=C sort | sha256sum | cut -d ' ' -f 1)
}

# The kit's identity. Where there is no kit, the one in the first line of a stamp.
kit() { # STAMP
    if has rt; then rt version | head -n 1; elif [ -f "$1" ]; then sed -n 1p "$1"; else echo unknown; fi
}

# The crates of this repository that one is made of, itself included, one on a line.
crates_needed() { # CRATE
    awk -v crate="$1" '
        function visit(name,    words, k, n) {
            if (!(name in needs) || name in seen) return
            seen[name]
            n = split(needs[name], words, " ")
            for (k = 1; k <= n; k++) visit(words[k])
            print name
        }
        { sub(/#.*/, ""); colon = index($0, ":"); if (!colon) next
          split(substr($0, 1, colon - 1), words, " "); name = words[1]
          needs[name] = substr($0, colon + 1) }
        END { visit(crate) }' "$top/crates.txt"
}

count_needed() { crates_needed "$1" | wc -l | tr -d ' '; }

# ---- a proof, which takes minutes

worker='' starting='' lines_seen=0 last_told=0

# Proves by a command in the crate's folder, with the lock, and tells how it goes. Its words go to the log. Its status.
prove() { # CRATE LOG COMMAND ..
    crate=$1 log=$2
    shift 2
    start "$@"
    pause=0.1 rounds=0
    while kill -0 "$worker" 2>/dev/null; do
        tell_progress
        # Where all is proved already it takes a moment.
        rounds=$((rounds + 1))
        [ "$rounds" -lt 10 ] || pause=1
        # A signal is answered while a shell waits, not while a command is at work.
        sleep "$pause" &
        wait "$!" || :
    done
    wait "$worker" && status=0 || status=$?
    worker=''
    tell_proved
    return "$status"
}

# Starts a command in a session of its own, so that it can be ended with all that it starts. It is ended too where this
# script is killed. Whatever it starts keeps the lock open, which is so held for as long as something is at work.
start() { # COMMAND ..
    lines_seen=0 last_told=$(date +%s)
    : >"$log"
    printf '%s\n' "$last_told" >"$top/target/proof.began"
    starting=yes
    # shellcheck disable=SC2016
    setsid sh -c '
        script=$1
        cd "$2" || exit
        shift 2
        "$@" &
        work=$!
        (while kill -0 "$script"; do sleep 1; done; kill -s TERM 0) >/dev/null 2>&1 9>&- &
        watch=$!
        wait "$work" && status=0 || status=$?
        kill "$watch"
        exit "$status"' sh "$$" "$top/crates/$crate" "$@" </dev/null >>"$log" 2>&1 9>&9 &
    worker=$!
    starting=''
}

# Ends this script, and first what it has started: a shell's background commands do not take Ctrl-C.
end_by_signal() { # STATUS
    trap '' HUP INT TERM
    # A signal may come between the start and the next line.
    set +u
    [ -z "$starting" ] || worker=$!
    if [ -n "$worker" ]; then
        say "ending the proof"
        kill -s TERM -- "-$worker" 2>/dev/null || :
        wait "$worker" 2>/dev/null || :
        for _ in 1 2 3 4 5; do kill -0 -- "-$worker" 2>/dev/null && sleep 1; done
    fi
    exit "$1"
}

take_signals() { # WHAT ENDS THIS SCRIPT, with a status
    # shellcheck disable=SC2064
    trap "$1 129" HUP && trap "$1 130" INT && trap "$1 143" TERM
}

# Seconds without a word after which it is told what is at work.
QUIET=15

# Tells each crate that rt says is proved; where it has said nothing for a while, what is at work and how much is left.
tell_progress() {
    tell_proved
    now=$(date +%s)
    [ $((now - last_told)) -lt "$QUIET" ] || { tell_at_work && last_told=$now; }
}

# Tells each crate of the log that was not told yet. rt proves the crates that have changed, the lowest first, and says nothing of the
# others.
tell_proved() {
    lines=$(wc -l <"$log")
    [ "$lines" -gt "$lines_seen" ] || return 0
    new=$(awk -v seen="$lines_seen" -v last="$lines" -v needed="$(crates_needed "$crate" | tr '\n' ' ')" '
        BEGIN { count = split(needed, words, " "); for (k = 1; k <= count; k++) place[words[k]] = k }
        NR > last { exit }
        /^crate [^ ]+: modules/ { name = substr($2, 1, length($2) - 1) }
        /^logic=proved/ && name in place { if (NR > seen) print place[name] " of " count ": " name " proved" }' "$log")
    lines_seen=$lines
    [ -n "$new" ] || return 0
    printf '%s\n' "$new" | while IFS= read -r line; do say "$line"; done
    last_told=$(date +%s)
}

# What rt has proved and has at work by its log; how long that takes by the seconds of another machine, and the time that has passed
# here. What comes before a crate that is told is proved.
tell_at_work() {
    began=$top/target/proof.began
    if [ ! -s "$log" ] || [ ! -s "$began" ]; then return 0; fi
    words=$({
        sed 's/^/seconds /' "$top/tools/proving-seconds.txt"
        crates_needed "$crate" | sed 's/^/needed /'
        sed 's/^/log /' "$log"
    } | awk -v passed="$(($(date +%s) - $(cat "$began")))" '
        $1 == "seconds" { seconds[$2] = $3 }
        $1 == "needed" { needed[++count] = $2; place[$2] = count }
        /^log rt: chose / { at = $NF }
        /^log crate [^ ]+: modules/ { at = substr($3, 1, length($3) - 1) }
        /^log logic=proved/ && at in place { proved[at]; done = place[at] }
        END {
            if (place[at] > done) done = place[at] - 1
            else at = needed[done + 1]
            for (k = 1; k <= count; k++) {
                name = needed[k]
                cost = name in seconds ? seconds[name] : 15
                if (k > done) left += cost
                else if (name in proved) spent += cost
            }
            rate = spent > 30 ? passed / spent : 0.8
            minutes = int(left * rate / 60 + 0.5)
            printf "%d of %d crates proved", done, count
            if (at) printf "; at work: %s", at
            printf "; %d s so far, roughly %s left", passed, minutes < 1 ? "a minute" : minutes == 1 ? "1 minute" : minutes " minutes"
        }')
    say "$words"
}

# ---- one proof at a time

# Waits until no other script proves here, and tells how that goes.
take_lock() { # CRATE LOG
    exec 9>>"$top/.run.lock"
    if flock -n 9; then return; fi
    say "waiting for another run, which proves and builds"
    crate=$1 log=$2 lines_seen=0 last_told=$(date +%s)
    until flock -w 1 9; do
        now=$(date +%s)
        [ $((now - last_told)) -lt "$QUIET" ] || { tell_at_work && last_told=$now; }
    done
}

leave_lock() { exec 9>&-; }
