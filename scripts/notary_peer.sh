#!/usr/bin/env bash
# Compares keys and signatures of two levels with Bouncy Castle's, both ways: what `notary` writes has the public key and the signatures
# that Bouncy Castle makes of the same trees, and verifies there; and `notarized` accepts a list that a key of Bouncy Castle's own signed.
# Nothing here is needed to build or prove. It is skipped where the peer, Java or Bouncy Castle is missing.
#
# usage: scripts/notary_peer.sh      with PEER=FOLDER for the peer's sources
# needs: rt, python3, a JDK and Debian's libbcprov-java
set -euo pipefail
top=$(cd "$(dirname "$0")/.." && pwd)
peer=${PEER:-$top/../shared/peers/lms_peer}
if [ ! -x "$peer/run.sh" ] || ! command -v javac > /dev/null || ! dpkg -L libbcprov-java > /dev/null 2>&1; then
    echo "two-level keys: skipped, no peer in $peer, no JDK or no libbcprov-java"
    exit 0
fi
LMS_PEER_OUT=$(mktemp -d)
export LMS_PEER_OUT
trap 'rm -rf "$LMS_PEER_OUT"' EXIT
"$top/dissent" 2> /dev/null || [ $? -eq 2 ]
python3 - "$top/crates/dissent/out/dissent" "$peer/run.sh" <<'END'
import struct, subprocess, sys
program, peer = sys.argv[1:]

def run(words, text):
    return subprocess.run([program, *words], input=text.encode(), capture_output=True)

# The keystream of a seed on a stream, from a place on: ChaCha20 with a counter and a stream of 64 bits each.
def block(seed, stream, counter):
    start = [0x61707865, 0x3320646E, 0x79622D32, 0x6B206574, *struct.unpack("<8I", seed),
             counter & 0xFFFFFFFF, counter >> 32, stream & 0xFFFFFFFF, stream >> 32]
    x = list(start)
    def quarter(a, b, c, d):
        for one, two, three, turn in ((a, b, d, 16), (c, d, b, 12), (a, b, d, 8), (c, d, b, 7)):
            x[one] = (x[one] + x[two]) & 0xFFFFFFFF
            x[three] ^= x[one]
            x[three] = (x[three] << turn | x[three] >> 32 - turn) & 0xFFFFFFFF
    for _ in range(10):
        for k in range(4):
            quarter(k, 4 + k, 8 + k, 12 + k)
        for k in range(4):
            quarter(k, 4 + (k + 1) % 4, 8 + (k + 2) % 4, 12 + (k + 3) % 4)
    return struct.pack("<16I", *((a + b) & 0xFFFFFFFF for a, b in zip(x, start)))

# The identifier and the seed of a tree, at a place that counts words of four bytes and is a multiple of 16.
def tree(seed, stream, place):
    bytes = block(seed, stream, place // 16)
    return bytes[:16].hex(), bytes[16:48].hex()

java = subprocess.Popen([peer], stdin=subprocess.PIPE, stdout=subprocess.PIPE, text=True)
def ask(*words):
    java.stdin.write(" ".join(words) + "\n")
    java.stdin.flush()
    return java.stdout.readline().strip()

passed = failed = 0
def same(what, ours, theirs):
    global passed, failed
    if ours == theirs:
        passed += 1
    else:
        failed += 1
        print(f"{what}: differs")

number, count = 7, 70
seed = bytes(24) + struct.pack(">Q", number)
entries = [bytes([q]) * (q % 5) for q in range(count)]
lines = run(["notary", str(number)], "".join(f"entry {e.hex() or '-'}\n" for e in entries) + "end\n").stdout.decode().split("\n")
key = lines[1].split()[1]
top = tree(seed, 10, 0)
same("public key", key, ask("hsskey", "5", "3", *top))
for q, entry in enumerate(entries):
    signature = lines[2 + q].split()[3]
    text = entry.hex() or "-"
    second = tree(seed, 11, 16 * (q // 32))
    same(f"signature {q}", signature, ask("hsssign", "5", "3", *top, str(q // 32), *second, str(q % 32), text))
    same(f"verification {q}", ask("hssverify", key, text, signature), "true")

theirs = ask("hssgen", "5", "3", str(count), "00ff").split(" ")
signed = f"dissent-notary 1\nkey {theirs[0]}\n" + "".join(f"sign {q} 00ff {s}\n" for q, s in enumerate(theirs[1:])) + "end\n"
same("a list of Bouncy Castle's", run(["notarized"], signed).stdout.decode(), f"notarized {count}\n")
java.stdin.close()
print(f"two-level keys: {passed} passed, {failed} failed")
sys.exit(failed > 0)
END
