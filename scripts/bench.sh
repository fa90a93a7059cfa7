#!/usr/bin/env bash
# Times the proved builds, against plain Rust in the same run where its sources and packages are there, and tells
# where a limit is broken. Nothing here is needed to build or prove.
#
# usage: scripts/bench.sh            with PEER=FOLDER for the plain Rust program's sources
# needs: rt, python3; for plain Rust cargo and Debian's librust-sha2-dev, librust-rand-chacha-dev,
#        librust-rand-core-dev and librust-hex-dev
#
# To add a measure: a module in crates/bench with a line in its main, the same measure as words of the plain Rust
# program, and a line 'compare' below. SHA-256 is compared with the scalar code of the package sha2, its feature
# force-soft: the processor's own instructions for it aren't used in the proved builds.
set -euo pipefail
top=$(cd "$(dirname "$0")/.." && pwd)
peer_sources=${PEER:-$top/../shared/peers/rust_baseline}
work=$(mktemp -d)
trap 'rm -rf "$work"' EXIT
broken=0

# Prints the least seconds of some runs of a command, and the greatest memory of them in MB. The command's output goes
# to a file.
measured() { # RUNS INPUT OUTPUT COMMAND..
    python3 -c '
import resource, subprocess, sys, time
runs, source, target = int(sys.argv[1]), sys.argv[2], sys.argv[3]
least = None
for _ in range(runs):
    with open(source, "rb") as i, open(target, "wb") as o:
        start = time.perf_counter()
        status = subprocess.run(sys.argv[4:], stdin=i, stdout=o, stderr=subprocess.DEVNULL).returncode
        seconds = time.perf_counter() - start
    if status != 0:
        sys.exit(f"{sys.argv[4:]} ended with {status}")
    least = seconds if least is None else min(least, seconds)
print("%.4f %d" % (least, resource.getrusage(resource.RUSAGE_CHILDREN).ru_maxrss // 1024))' "$@"
}

# Whether a number is at most another.
at_most() { python3 -c 'import sys; sys.exit(not float(sys.argv[1]) <= float(sys.argv[2]))' "$1" "$2"; }

verdict() { # VALUE LIMIT
    if at_most "$1" "$2"; then echo "at most $2: holds"; else echo "at most $2: BROKEN"; fi
}

# The lesser of two numbers.
least() { python3 -c 'import sys; print(min(sys.argv[1:], key=float))' "$@"; }

# Proves and builds a program of the repository and prints its path. (Without words the program itself may end badly.)
built() { # CRATE
    (cd "$top/crates/$1" && rt check > "$work/build" 2>&1) || { tail -5 "$work/build" >&2; exit 1; }
    (cd "$top/crates/$1" && rt run < /dev/null > "$work/build" 2>&1) || true
    [ -x "$top/crates/$1/out/$1" ] || { tail -5 "$work/build" >&2; exit 1; }
    echo "$top/crates/$1/out/$1"
}

# Times one measure of both programs in turn, compares what they print, and prints how many times as long ours takes.
compare() { # NAME LIMIT OUR-WORDS PEER-WORDS
    local ours theirs ratio one
    ours=1e9 theirs=1e9
    for _ in 1 2 3 4 5 6 7; do
        one=$(measured 1 /dev/null "$work/ours" "$bench" $3)
        ours=$(least "$ours" "${one% *}")
        [ -z "$peer" ] && continue
        one=$(measured 1 /dev/null "$work/theirs" "$peer" $4)
        theirs=$(least "$theirs" "${one% *}")
        cmp -s "$work/ours" "$work/theirs" || { echo "$1: the two programs print different lines"; broken=1; return; }
    done
    if [ -z "$peer" ]; then
        echo "$1: $ours s (no plain Rust to compare with)"
        return
    fi
    ratio=$(python3 -c 'import sys; print("%.2f" % (float(sys.argv[1]) / float(sys.argv[2])))' "$ours" "$theirs")
    echo "$1: $ours s, plain Rust $theirs s: $ratio times, $(verdict "$ratio" "$2")"
    at_most "$ratio" "$2" || broken=1
}

# Runs both programs on the same words in turn, compares what they print, and prints how many times as long ours takes
# for each of the parts that both tell on standard error as 'NAME SECONDS NAME SECONDS ..'.
compare_parts() { # NAME 'PART=LIMIT ..' WORDS
    python3 - "$1" "$2" "$bench" "$peer" "$3" <<'END' || broken=1
import subprocess, sys
name, limits, ours, theirs, words = sys.argv[1:]
limits = {part: float(limit) for part, limit in (pair.split("=") for pair in limits.split())}
def run(program):
    done = subprocess.run([program, *words.split()], capture_output=True, text=True, check=True)
    fields = done.stderr.split()
    return done.stdout, {part: float(seconds) for part, seconds in zip(fields[::2], fields[1::2])}
def least(runs):
    return {part: min(parts[part] for _, parts in runs) for part in runs[0][1]}
programs = [program for program in (ours, theirs) if program]
runs = [[run(program) for program in programs] for _ in range(7)]
mine = least([row[0] for row in runs])
if not theirs:
    print(f"{name}: " + ", ".join(f"{part} {seconds:.6f} s" for part, seconds in mine.items())
          + " (no plain Rust to compare with)")
    sys.exit(0)
if len({text for row in runs for text, _ in row}) != 1:
    sys.exit(f"{name}: the two programs print different lines")
plain = least([row[1] for row in runs])
broken = False
for part, seconds in mine.items():
    ratio = round(seconds / plain[part], 2)
    holds = ratio <= limits[part]
    broken = broken or not holds
    print(f"{name}, {part}: {seconds:.6f} s, plain Rust {plain[part]:.6f} s: {ratio:.2f} times, "
          f"at most {limits[part]:g}: {'holds' if holds else 'BROKEN'}")
sys.exit(broken)
END
}

# Times one measure of ours, and prints how many MB a second it reads. Its line begins with the number of bytes.
rate() { # NAME LEAST-MB-A-SECOND OUR-WORDS
    local seconds bytes mb
    seconds=$(measured 5 /dev/null "$work/ours" "$bench" $3)
    bytes=$(cut -d' ' -f1 "$work/ours")
    mb=$(python3 -c 'import sys; print("%d" % (int(sys.argv[1]) / 1e6 / float(sys.argv[2])))' "$bytes" "${seconds% *}")
    if at_most "$2" "$mb"; then
        echo "$1: $mb MB a second, at least $2: holds"
    else
        echo "$1: $mb MB a second, at least $2: BROKEN"
        broken=1
    fi
}

# Runs two measures of ours in turn, and prints how many times as long a part of the first takes as a part of the second. The parts are those
# that are told on standard error as 'NAME SECONDS NAME SECONDS ..'. Where it is asked, both have to print the same line, or each its own.
ratio() { # NAME LIMIT RUNS PART WORDS OTHER-PART OTHER-WORDS [same | LINE OTHER-LINE]
    python3 - "$bench" "$@" <<'END' || broken=1
import subprocess, sys
program, name, limit, runs, part, words, other, others, *lines = sys.argv[1:]
def run(words):
    done = subprocess.run([program, *words.split()], capture_output=True, text=True, check=True)
    fields = done.stderr.split()
    return done.stdout, {part: float(seconds) for part, seconds in zip(fields[::2], fields[1::2])}
def both():
    first = run(words)
    return first, first if others == words else run(others)
rows = [both() for _ in range(int(runs))]
printed = {tuple(text.rstrip("\n") for text, _ in row) for row in rows}
if lines == ["same"] and len({text for pair in printed for text in pair}) != 1 or len(lines) == 2 and printed != {tuple(lines)}:
    sys.exit(f"{name}: {printed}")
one = min(first[1][part] for first, _ in rows)
two = min(second[1][other] for _, second in rows)
times = round(one / two, 2)
holds = times <= float(limit)
print(f"{name}: {one:.6f} s, {times:.2f} times {two:.6f} s, at most {limit}: {'holds' if holds else 'BROKEN'}")
sys.exit(not holds)
END
}

# Runs two commands in turn, the first on an input, and prints how many times as long it takes as the other.
against() { # NAME LIMIT RUNS INPUT 'COMMAND ..' 'OTHER ..'
    local ours=1e9 theirs=1e9 one ratio
    for _ in $(seq "$3"); do
        one=$(measured 1 "$4" "$work/ours" $5)
        ours=$(least "$ours" "${one% *}")
        one=$(measured 1 /dev/null "$work/theirs" $6)
        theirs=$(least "$theirs" "${one% *}")
    done
    ratio=$(python3 -c 'import sys; print("%.2f" % (float(sys.argv[1]) / float(sys.argv[2])))' "$ours" "$theirs")
    echo "$1: $ours s, $ratio times $theirs s, $(verdict "$ratio" "$2")"
    at_most "$ratio" "$2" || broken=1
}

# The script of one round of a group of 512 clients and 16 servers.
large_round() {
    python3 -c '
print("group 512 16 3 5 6", "%064x" % 7)
for j in range(16): print("open", f"s{j}", 1)
for i in range(512): print("submit", f"c{i}", f"s{i % 16}", 1)
print("flow 1")
for j in range(16): print("close", f"s{j}")
print("flow 6")
print("end")'
}

# The script of a first round of a group of 256 clients and 16 servers, and so many rounds in which each client speaks in its slot.
spoken_rounds() { # ROUNDS
    python3 -c '
import sys
rounds = int(sys.argv[1]) + 1
print("group 256 16 3 5 6", "%064x" % 7)
for _ in range(rounds):
    for i in range(256): print("say", f"c{i}", "68656c6c6f")
for r in range(1, rounds + 1):
    for j in range(16): print("open", f"s{j}", r)
    for i in range(256): print("submit", f"c{i}", f"s{i % 16}", r)
    print("flow 1")
    for j in range(16): print("close", f"s{j}")
    print("flow 6")
print("end")' "$1"
}

# Checks reports as an outsider does: how many times as long one of twice as many rounds takes; how many times as long as its signature
# checks alone, which another program times; and how much memory.
outsider() { # PROGRAM
    local one two checks size seconds memory ratio
    for rounds in 4 8; do
        spoken_rounds "$rounds" > "$work/script"
        "$1" run < "$work/script" > "$work/report.$rounds"
    done
    one=1e9 two=1e9 checks=1e9
    for _ in 1 2 3; do
        read -r seconds memory <<< "$(measured 1 "$work/report.4" "$work/ours" "$1" verify)"
        one=$(least "$one" "$seconds")
        read -r seconds memory <<< "$(measured 1 "$work/report.8" "$work/ours" "$1" verify)"
        two=$(least "$two" "$seconds")
        "$bench" report 256 16 3 5 6 7 < "$work/report.8" > "$work/theirs" 2> "$work/seconds"
        checks=$(least "$checks" "$(cut -d' ' -f2 "$work/seconds")")
    done
    size=$(python3 -c 'import os, sys; print("%.2f" % (os.path.getsize(sys.argv[2]) / os.path.getsize(sys.argv[1])))' "$work/report.4" "$work/report.8")
    ratio=$(python3 -c 'import sys; print("%.2f" % (float(sys.argv[1]) / float(sys.argv[2]) * 2 / float(sys.argv[3])))' "$two" "$one" "$size")
    echo "dissent verify, a report twice as long ($size times $(stat -c %s "$work/report.4") bytes): $two s, $ratio times $one s, $(verdict "$ratio" 2.2)"
    at_most "$ratio" 2.2 || broken=1
    ratio=$(python3 -c 'import sys; print("%.2f" % (float(sys.argv[1]) / float(sys.argv[2])))' "$two" "$checks")
    echo "dissent verify, to its signature checks alone: $two s, $ratio times $checks s, $(verdict "$ratio" 2)"
    at_most "$ratio" 2 || broken=1
    ratio=$(python3 -c 'import os, sys; print("%.2f" % (float(sys.argv[1]) * 1048576 / os.path.getsize(sys.argv[2])))' "$memory" "$work/report.8")
    echo "dissent verify, memory: $memory MB, $ratio times the report, $(verdict "$ratio" 4)"
    at_most "$ratio" 4 || broken=1
}

peer=
if [ ! -d "$peer_sources" ]; then
    echo "plain Rust: skipped, no folder $peer_sources"
else
    cp -r "$peer_sources" "$work/peer"
    if (cd "$work/peer" && ./build.sh --features soft > "$work/peer.log" 2>&1); then
        peer=$work/peer/target/release/rust_baseline
    else
        echo "plain Rust: skipped, it can't be built here: $(tail -1 "$work/peer.log")"
    fi
fi
bench=$(built bench)

compare '512 pads of 65,536 bits, 20 times' 3 'pads 512 65536 20' 'pads 512 8192 20'
compare_parts 'LMS of height 10 with digits of four bits' 'make=0.55 sign=1 verify=1' 'lms 6 3 2000'
compare 'dealing a group of 48 clients and 3 servers' 0.65 'deal 48 3 3 5 6 1' 'deal 48 3 3 5 6 1'
rate '1,000 inventories of 100 entries with signatures of 1,292 bytes' 200 'records 1000 100 1292'
rate 'a post line of 8 MB, read and printed 20 times' 200 'post 4000000 20'
rate 'a script of 8 MB in 65,000 lines, read 20 times' 50 'script 65000 59 20'

# Messages in flight: how long all puts, walks and takes take, and how many times as long one departure takes among many
# messages as among few.
python3 - "$bench" <<'END' || broken=1
import subprocess, sys
def least(count):
    runs = [subprocess.run([sys.argv[1], "flight", str(count), "100000"], capture_output=True, text=True, check=True)
            for _ in range(5)]
    parts = [done.stderr.split() for done in runs]
    return min(float(p[1]) for p in parts), min(float(p[3]) for p in parts)
all_of_many, many = least(65535)
_, few = least(16)
ratio = round(many / few, 2)
holds = all_of_many <= 1 and ratio <= 3
print(f"65,535 messages in flight: {all_of_many:.3f} s, at most 1; a departure {ratio:.2f} times as long as among 16, "
      f"at most 3: {'holds' if holds else 'BROKEN'}")
sys.exit(not holds)
END

# Verdicts: how many times as long one takes on twice as many envelopes, of a round of 512 clients and 16 servers.
ratio 'a verdict on twice as many envelopes as 65,536' 2.3 5 verdict 'verdict 512 16 131072' verdict 'verdict 512 16 65536' \
    '131072 heard, 1 blamed, 0 silent' '65536 heard, 1 blamed, 0 silent'

# The notary: how many times as long 1,024 entries take as making 33 trees and 2,048 signatures.
python3 - "$bench" <<'END' || broken=1
import subprocess, sys
rows = []
for _ in range(7):
    done = subprocess.run([sys.argv[1], "notary", "7", "1024"], capture_output=True, text=True, check=True)
    rows.append((done.stdout, float(done.stderr.split()[1]), float(done.stderr.split()[3])))
if len({text for text, _, _ in rows}) != 1:
    sys.exit("the notary: two outputs")
notary, parts = min(row[1] for row in rows), min(row[2] for row in rows)
ratio = round(notary / parts, 2)
holds = ratio <= 1.2
print(f"the notary of 1,024 entries: {notary:.3f} s, {ratio:.2f} times as long as 33 trees and 2,048 signatures, "
      f"at most 1.2: {'holds' if holds else 'BROKEN'}")
sys.exit(not holds)
END

# A server's sum: how many times as long four workers take as one, where there are four processors.
if [ "$(nproc)" -lt 4 ]; then
    echo "a sum by four workers: skipped, fewer than four processors"
else
    ratio 'a sum of 512 pads of 65,536 bits by four workers, to one by one' 0.4 3 sum 'sum 512 65536 4 20' sum 'sum 512 65536 1 20' same
fi

# A round through the cores of all servers: how many times as long it takes as its signature checks alone.
# A server signs 32 receipts and four statements of the round, so its key needs more than 32 leaves.
ratio 'a round of 512 clients and 16 servers, to its signature checks' 1.3 3 round 'round 512 16 3 5 6 1' checks 'round 512 16 3 5 6 1'

# The greatest plain round: every other client says something, so that the script stays within its limit.
if [ -d "$top/crates/dissent" ]; then
    dissent=$(built dissent)
    python3 -c '
print("plain 512 16 65536", "00" * 32)
for i in range(0, 512, 2):
    print("say", i, ("%02x" % (i % 256)) * 8192)
print("end")' > "$work/script"
    read -r seconds memory <<< "$(measured 3 "$work/script" "$work/report" "$dissent" run)"
    echo "dissent run, 512 clients, 16 servers, 65,536 bits: $seconds s, $(verdict "$seconds" 4); $memory MB, $(verdict "$memory" 400)"
    at_most "$seconds" 4 && at_most "$memory" 400 || broken=1

    # Runs of groups, to the dealing of the same group.
    "$dissent" gen 7 > "$work/script"
    against 'dissent run, the large script, to the deal alone' 1.3 5 "$work/script" "$dissent run" "$bench deal 48 3 3 5 6 7"
    against 'dissent demo 7, to the deal alone' 1.3 5 /dev/null "$dissent demo 7" "$bench deal 48 3 3 5 6 7"
    outsider "$dissent"
    large_round > "$work/script"
    [ -z "$peer" ] || against 'dissent run, a round of 512 clients and 16 servers, to the deal in plain Rust' 1.2 2 "$work/script" "$dissent run" \
        "$peer deal 512 16 3 5 6 7"
else
    echo "dissent run: skipped, no crate dissent"
fi
exit $broken
