#!/usr/bin/env bash
# Tries the built program on scripts and on real streams: each status by its cause, files, pipes, a full device, a
# reader that goes away.
#
#   examples/try_all.sh [PROGRAM]
#
# Without a PROGRAM it tries those that `rt ci` or `rt run` built, by one compiler or by two. The last line for each is
# 'N passed, M failed'; the status is 1 where one failed, or where there is no program.
set -u
cd "$(dirname "$0")" || exit 1
if [ $# -eq 0 ]; then
    built=../crates/session_script/out/session_script
    status=0
    for program in "$built" "$built.by-rattle"; do
        if [ -x "$program" ] || [ "$program" = "$built" ]; then
            ./try_all.sh "$program" || status=1
        fi
    done
    exit $status
fi
program=$(realpath "$1")
if [ ! -x "$program" ]; then
    echo "no program at $1: rt ci builds it, and so does rt run in crates/session_script"
    exit 1
fi
work=$(mktemp -d)
trap 'rm -rf "$work"' EXIT
passed=0
failed=0

# Whether the commands of the report, on a display machine with eight slots, name no empty slot and show the frames of
# its packets.
replays() {
    awk '
        $1 == "code" {
            for (i = 5; i <= NF && $i != "refresh"; i++) if ($i != "-" && !($i in held)) empty = 1
            for (slot = 0; slot < 8; slot++) if (int($(NF - 1) / 2 ^ slot) % 2) held[slot] = $2
        }
        $1 == "code" && $NF == "shown" { shown = shown " " $2 }
        $1 == "show" { if (!($2 in held)) empty = 1; shown = shown " " held[$2] }
        $1 == "Frame" { packets = packets " " $2 }
        END { exit empty || (shown != "" && shown != packets) }
    ' "$work/out"
}

# Compares the status of the last run, and what it wrote, with what is wanted; nothing goes to standard error.
compare() {
    local name=$1 status=$2 file=$3 got=$4
    if [ "$got" = "$status" ] && cmp -s "$file" "$work/out" && [ ! -s "$work/err" ] && replays; then
        passed=$((passed + 1))
    else
        failed=$((failed + 1))
        echo "FAILED $name: status $got, wanted $status"
        diff "$file" "$work/out" | head -n 5
        head -n 5 "$work/err"
    fi
}

# The same with the text itself.
wanted() {
    printf '%b' "$3" >"$work/wanted"
    compare "$1" "$2" "$work/wanted" "$4"
}

# Runs the program on a script, with these words.
run() {
    local script=$1
    shift
    printf '%b' "$script" | "$program" "$@" >"$work/out" 2>"$work/err"
}

# Each example has its report beside it, or the line that says why there is none; here stand its words and its status.
for script in *.txt; do
    words=run
    status=0
    case ${script%.txt} in
        first_pass) words=pass1 ;;
        second_pass | second_pass_ahead) words=pass2 ;;
        jobs) words='gops 2' ;;
        refused) status=4 ;;
    esac
    # The words are split on purpose.
    # shellcheck disable=SC2086
    "$program" $words <"$script" >"$work/out" 2>"$work/err"
    compare "$script" "$status" "${script%.txt}.report" $?
done

# Tries a script. A report @NAME stands in NAME.report.
try_script() {
    local words=$1 status=$2 script=$3 report=$4 got
    # The words are split on purpose.
    # shellcheck disable=SC2086
    run "$script" $words
    got=$?
    case $report in
        @*) compare "$words: $script" "$status" "${report#@}.report" "$got" ;;
        *) wanted "$words: $script" "$status" "$report" "$got" ;;
    esac
}

# Tries scripts, by rows of WORDS|STATUS|SCRIPT|REPORT. The word jobs stands for jobs on different numbers of workers.
try_scripts() {
    local words status script report workers
    while IFS='|' read -r words status script report; do
        case $words in
            '#'*) ;;
            jobs)
                for workers in 1 2 4 16; do
                    try_script "gops $workers" "$status" "$script" "$report"
                done
                ;;
            *) try_script "$words" "$status" "$script" "$report" ;;
        esac
    done
}

# Tries words that ask for nothing: nothing is written. A row has the words as a shell reads them.
try_words() {
    local row words
    while read -r row; do
        eval "words=($row)"
        run 'flush\n' "${words[@]}"
        wanted "the words $row" 2 '' $?
    done
}

# Tries streams, by rows of NAME|STATUS|REPORT.
try_streams() {
    local name status report
    while IFS='|' read -r name status report; do
        case $name in
            *'full device') [ -c /dev/full ] || continue ;;
        esac
        stream "$name" >"$work/out" 2>"$work/err"
        wanted "$name" "$status" "$report" $?
    done
}

# Runs the program as the name of a stream says.
stream() {
    case $1 in
        'a script in pieces') pieces | "$program" run ;;
        'nothing is read')
            printf 'send\n' >"$work/script"
            {
                "$program" walk
                cat
            } <"$work/script"
            ;;
        'a directory') "$program" run <"$work" ;;
        'no standard input') "$program" run <&- ;;
        'a seed without standard input') "$program" gen 7 <&- ;;
        'a full device') printf 'send\n' | "$program" run >/dev/full ;;
        'a text on a full device') "$program" --help >/dev/full ;;
        'a wrong line on a full device') printf 'x\n' | "$program" run >/dev/full ;;
        'no standard output') printf 'send\n' | "$program" run >&- ;;
        'a reader that goes away')
            printf 'send 90000\n' | "$program" run | true
            return "${PIPESTATUS[1]}"
            ;;
        'as many bytes as may be') line_feeds 1048576 | "$program" run ;;
        'a byte too many') line_feeds 1048577 | "$program" run ;;
        'no memory') (ulimit -v 2000000 && printf 'size 65535 65535\nsend\n' | "$program" run) ;;
        'the help') "$program" --help | help_is_whole ;;
        'as many frames as a window takes') window 32 | "$program" pass2 ;;
        'a frame more than a window takes') window 33 | "$program" pass2 ;;
        'what a first pass says') second_pass ;;
        'an opaque value changes no report')
            printf 'send 2\nflush\nreceive 2\n' | "$program" run >"$work/without"
            printf 'sendopaque 7\nsend\nflush\nreceive 2\n' | "$program" run | diff "$work/without" -
            ;;
    esac
}

pieces() {
    printf 'se'
    sleep 0.2
    printf 'nd\nflu'
    sleep 0.2
    printf 'sh\nreceive\n'
}

line_feeds() {
    head -c "$1" /dev/zero | tr '\0' '\n'
}

help_is_whole() {
    cat >"$work/help"
    [ "$(grep -c '' "$work/help")" -gt 20 ] && head -n 1 "$work/help" | grep -q '^session_script: '
}

# A second pass that is given the pass data of so many frames. Twelve shown frames fill a window's units, and twenty
# more its places.
window() {
    printf '%b' "bitrate 30000\nreservoir 12\n$forty\n"
    yes 'pass 0000000000000001' | head -n "$1"
}

# A second pass that is given what a first one says codes the same, and waits for nothing.
second_pass() {
    local settings='size 64 80\nkeyint 0 5\nrdo 10\nbitrate 30000\n'
    printf '%b' "${settings}send 10\nflush\nreceive 15\n" | "$program" pass1 >"$work/first" || return
    {
        printf '%b' "$settings"
        grep '^summary ' "$work/first"
        printf 'send 10\nflush\n'
        sed -n '/^pass /{p;s/.*/receive/p;}' "$work/first"
        printf 'receive\n'
    } | "$program" pass2 >"$work/second" || return
    grep -E '^(code|show) ' "$work/first" >"$work/commands"
    grep -E '^(code|show) ' "$work/second" | diff "$work/commands" -
    printf '%s commands, %s packets, %s waits\n' "$(grep -c '' "$work/commands")" \
        "$(grep -c '^Frame ' "$work/second")" "$(grep -c '^not-ready$' "$work/second")"
}

# What reports have in common: the command of a key frame, its packet, both, all of a script of one frame.
code='code 0 key refs - refresh 255 shown\n'
packet='Frame 0 - Key frame - 102 bytes\n'
key=$code$packet
one="sent 0\nflushed\n$key"
tried="trial 0\n$key"

# Summaries of one frame, by hand and as a first pass makes it, and of forty; a key frame's pass data in the same ways.
unit='summary 5641325001000000010000000100000000000000000000000000000000000000'
unit+=304554570000000000000000000000000000000000000000000000000000000000000000
made='summary 5641325001000000010000000100000000000000000000000000000000000000'
made+=4d53443d7f99740000000000000000000000000000000000000000000000000000000000
forty='summary 56413250010000000c0000002800000000000000000000000000000000000000'
forty+=304554570000000000000000000000000000000000000000000000000000000000000000
given='pass 0000008000000001'
said='pass 00000080198cddfe'

# Longer reports, and what makes rows long.
four="sent 0\nflushed\n${code}Frame 0 - Key frame - 4 bytes\nbytes 12000000\n"
mismatch=frame-size-mismatch
waited="sent 0\nflushed\nnot-ready\ngiven\n${tried}limit-reached\n"
thirty_two=$(printf 'given\\n%.0s' {1..32})
six='frames 2000\nkeys 63\nhidden 937\npackets 2000\nbytes 245244\nreservoir 178560\n'
twelve=$packet'Frame 1 - Inter frame - 42 bytes\nFrame 2 - Inter frame - 5 bytes\nFrame 3 - Inter frame - 22 bytes\n'
twelve+='Frame 4 - Key frame - 102 bytes\nFrame 5 - Inter frame - 42 bytes\n'
twelve+='Frame 6 - Inter frame - 5 bytes\nFrame 7 - Inter frame - 22 bytes\n'
twelve+='Frame 8 - Key frame - 102 bytes\nFrame 9 - Inter frame - 42 bytes\n'
twelve+='Frame 10 - Inter frame - 5 bytes\nFrame 11 - Inter frame - 22 bytes\n'
counted=$packet'Frame 1 - Inter frame - 29 bytes\nFrame 2 - Inter frame - 5 bytes\nFrame 3 - Inter frame - 22 bytes\n'
counted+='Frame 4 - Key frame - 52 bytes\nFrame 5 - Inter frame - 23 bytes\n'
counted+='Frame 6 - Inter frame - 5 bytes\nFrame 7 - Inter frame - 22 bytes\n'

# Status 0: one pass.
try_scripts <<ROWS
run|0||
run|0|flush\nreceive\n|flushed\nlimit-reached\n
run|0|receive\nflush\nreceive\n|need-more-data\nflushed\nlimit-reached\n
run|0|send\nflush\nreceive|$one
run|0|size 64 80\nkeyint 0 5\nrdo 10\nsend 10\nflush\nreceive 15\n|@two_gops
run|0|size 64 80\nkeyint 0 5\nrdo 10\nsend 10\nflush\nreceive 15|@two_gops
run|0|lowlatency\nrdo 1\nsend 4\nreceive\nsend\nreceive\n|sent 0\nsent 1\nsent 2\nsent 3\nneed-more-data\nsent 4\n$key
run|0|print bytes\nbytes 0 2\nsend\nflush\nreceive\n|$four
# a frame of another size than the settings'
run|0|size 64 80\nsendsize 32 32\nsend\nflush\nsendsize 32 32\n|send $mismatch\nsent 0\nflushed\nsend enough-data\n
run|0|size 16 17\nsendsize 17 16\nsendsize 16 17\nflush\nreceive\n|send $mismatch\n$one
# a fault that is not reached
run|0|fault 1\nsend\nflush\nreceive\n|$one
run|0|size 16 16\nfault 1\nsend\nflush\nreceive 2\n|${one}limit-reached\n
# a still picture may be as small as a sample, and has one frame
run|0|still\nsize 1 1\nsend\nsend\nflush\nreceive\n|sent 0\nsend enough-data\nflushed\n$key
# no picture is made without a frame; it would have six billion samples
run|0|size 65535 65535\nflush\nreceive\n|flushed\nlimit-reached\n
ROWS

# Status 0: two passes. What the first one says goes into the script of the second, where no receive waits then.
try_scripts <<ROWS
pass1|0|bitrate 30000\nsend\nflush\nreceive 2\n|sent 0\nflushed\n$tried$said\nlimit-reached\n$made\n
pass1|0|bitrate 30000\n$unit\nsend\nflush\nreceive\n|sent 0\nflushed\nnot-ready\n
pass2|0|bitrate 30000\n$made\nsend\nflush\n$said\nreceive 2\n|sent 0\nflushed\ngiven\n${tried}limit-reached\n
pass2|0|bitrate 30000\n$made\nsend\nflush\nreceive\n|sent 0\nflushed\nnot-ready\n
pass2|0|bitrate 30000\n$unit\nsend\nflush\nreceive\n$given\nreceive 2\n|$waited
pass2|0|bitrate 30000\n$unit\nsend 2\nflush\n$given\nreceive 2\n|sent 0\nsent 1\nflushed\ngiven\n${tried}not-ready\n
ROWS

# Status 0: jobs side by side. Counts of bytes are by the script's numbers, in each job.
try_scripts <<ROWS
jobs|0|flush\n|
jobs|0|fault 1\nsend\nflush\n|$packet
jobs|0|cut 1\nsend 2\nflush\n|${packet}Frame 1 - Key frame - 102 bytes\n
jobs|0|cut 4\ncut 8\nsend 12\nflush\n|$twelve
jobs|0|bytes 2 7\nbytes 6 1\nbytes 4 50\ncut 4\nsend 3\nsend 5\nflush\n|$counted
ROWS

# Status 0: scripts that numbers make, and the version. Standard input isn't read.
try_scripts <<ROWS
gen 7|0|x\n|$six
gen 0007|0|x\n|$six
gen 00000000000000000007|0|x\n|$six
--version|0|x\n|session_script 0.1.0\n
ROWS

# Status 2: other words, the first of them none.
try_words <<'ROWS'

''
walk
Run
RUN
'run '
run x
--help x
x --version
--Version
pass
pass1 x
pass3
gen
gen ''
gen 0
gen 10001
gen +7
gen -7
gen '7 '
gen 000000000000000000007
gen 7 7
7 gen
gops
gops 0
gops 17
gops '2 '
gops 2 2
2 gops
ROWS

# Status 3: a wrong line, by its number.
try_scripts <<ROWS
run|3|x\n|script line 1\n
run|3|x|script line 1\n
run|3|size 64 80\r\nflush\r\n|script line 1\n
run|3|\n# none\nsize 64 80\nsize 64 80\n|script line 4\n
run|3|send 99999\nflush\nflush\n|script line 3\n
run|3|sendsize 64 64\nsendsize 64 65\n|script line 2\n
run|3|summary 56\nsend 0\n|script line 2\n
pass1|3|bitrate 30000\nflush\npass 0000008000000001\n|script line 3\n
jobs|3||script line 1\n
jobs|3|send\n|script line 2\n
jobs|3|still\nsend\nflush\n|script line 1\n
ROWS

# Status 4: a setting out of its range.
try_scripts <<ROWS
run|4|size 15 15\nflush\n|invalid config 1\n
run|4|size 16 65536\nflush\n|invalid config 2\n
run|4|aspect 1 0\nflush\n|invalid config 4\n
run|4|timebase 0 30\nflush\n|invalid config 11\n
run|4|reservoir 11\nflush\n|invalid config 13\n
run|4|switch 2\nflush\n|invalid config 14\n
run|4|timing\nstill\nflush\n|invalid config 15\n
run|4|level 5\nflush\n|invalid config 19\n
run|4|quantizer 256\nflush\n|invalid config 21\n
run|4|depth 9\nflush\n|invalid config 22\n
run|4|depth 10\nflush\n|invalid config 22\n
run|4|still\nsize 0 1\nflush\n|invalid config 1\n
# a run is a session in one pass, whatever else is wrong, and so are jobs
run|4|size 0 80\n$unit\nflush\n|invalid config 17\n
jobs|4|bitrate 30000\n$unit\nsend\nflush\n|invalid config 17\n
jobs|4|size 15 15\nflush\n|invalid config 1\n
pass1|4|flush\n|invalid config 16\n
pass1|4|bitrate 30000\nsize 0 80\n|invalid config 1\n
pass2|4|bitrate 30000\nsize 0 80\npass 00\n|invalid config 17\n
ROWS

# Status 8: a call of the coder that the script names. A try and a show are calls too, and the least number comes first.
try_scripts <<ROWS
run|8|fault 0\nsend\nflush\nreceive\n|coder fault 0\n
run|8|fault 3\nsize 64 80\nkeyint 0 5\nrdo 10\nsend 10\nflush\nreceive 15\n|coder fault 3\n
run|8|fault 9\nfault 4\nsize 64 80\nkeyint 0 5\nrdo 10\nsend 10\nflush\nreceive 15\n|coder fault 4\n
run|8|bitrate 30000\nfault 0\nsend\nflush\nreceive\n|coder fault 0\n
run|8|bitrate 30000\nfault 2\nsize 64 80\nkeyint 0 5\nrdo 10\nsend 10\nflush\nreceive 15\n|coder fault 1\n
pass1|8|bitrate 30000\nfault 1\nsend\nflush\nreceive\n|coder fault 0\n
# the least job whose coder fails
jobs|8|cut 4\ncut 8\nfault 2\nsend 12\nflush\n|coder fault 0 2\n
jobs|8|cut 1\nfault 2\nsend 5\nflush\n|coder fault 1 2\n
jobs|8|bitrate 30000\nfault 1\nsend\nflush\n|coder fault 0 0\n
jobs|8|fault 0\ncut 1\nsend 2\nflush\n|coder fault 0 0\n
ROWS

# Status 10: a summary or pass data that is refused, the summary before a setting, and behind a bad line.
try_scripts <<ROWS
run|10|summary 56\nflush\n|pass data 1\n
run|10|size 0 80\nsummary 56\nflush\n|pass data 1\n
jobs|10|summary 56\nflush\n|pass data 1\n
pass1|10|summary 56\nflush\n|pass data 1\n
pass2|10|summary 56\npass 00\n|pass data 1\n
pass2|10|bitrate 30000\nsummary 00\nsend\nflush\nreceive\n|pass data 1\n
pass2|10|bitrate 30000\n$unit\nsend\nflush\npass 0500000000000000\n|pass data 2\n
pass2|10|bitrate 30000\n$unit\nsend\nflush\nreceive\npass 00\nreceive 2\n|pass data 5\n
pass2|10|bitrate 30000\n$made\nsend\nflush\npass 00\nreceive\n|pass data 5\n
pass2|10|bitrate 30000\n$unit\nsend\nflush\nreceive\n$given\n$given\nreceive 2\n|pass data 4\n
pass2|10|bitrate 30000\n$unit\nsend 2\nflush\n$given\nreceive 2\n$given\n|pass data 4\n
ROWS

# Streams: in pieces, not read, no source (5), no sink (6), too long (7), no memory (9); and what takes several runs.
try_streams <<ROWS
a script in pieces|0|$one
nothing is read|0|send\n
a seed without standard input|0|$six
a directory|5|
no standard input|5|
a full device|6|
a text on a full device|6|
a wrong line on a full device|3|
no standard output|6|
a reader that goes away|6|
as many bytes as may be|0|
a byte too many|7|
no memory|9|
the help|0|
as many frames as a window takes|0|$thirty_two
a frame more than a window takes|10|pass data 3\n
what a first pass says|0|14 commands, 10 packets, 0 waits\n
an opaque value changes no report|0|
ROWS

echo "$passed passed, $failed failed"
[ "$failed" -eq 0 ]
