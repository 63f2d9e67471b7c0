#!/bin/sh
# A newcomer's first session with koivrast, and all that can go wrong in it: sh first_session.sh PATH_OF_KOIVRAST
# Prints 'ok NAME' or 'FAILED NAME' for each check and how many there were; the exit status is 0 if none failed.
[ $# -eq 1 ] || { echo "which koivrast?" && exit 2; }
tool=$(cd "$(dirname "$1")" && pwd)/$(basename "$1")
export tool
folder=$(mktemp -d) && trap 'rm -rf "$folder"' EXIT && cd "$folder" || exit 1
umask 022
checks=0
failed=0

passed() { checks=$((checks + 1)) && echo "ok $1"; }
missed() { checks=$((checks + 1)) && failed=$((failed + 1)) && echo "FAILED $1"; }

nothing_half_written() { ! find . -name '.koivrast-*' | grep -q .; }

# expect NAME STATUS PATTERN COMMAND...: the exit status, a line of what is said, no panic, nothing half-written left behind
expect() {
    name=$1 status=$2 pattern=$3
    shift 3
    "$@" >.said 2>&1 </dev/null
    got=$?
    if [ "$got" -eq "$status" ] && grep -q -e "$pattern" .said && ! grep -q panicked .said && nothing_half_written; then
        passed "$name"
    else
        missed "$name"
        echo "  exit status $got, wanted $status and '$pattern'; said:"
        sed 's/^/  | /' .said
    fi
}

# holds NAME COMMAND...: the command succeeds
holds() {
    name=$1
    shift
    if "$@" >/dev/null 2>&1 </dev/null; then passed "$name"; else missed "$name"; fi
}

# fails NAME COMMAND...: it does not
fails() {
    name=$1
    shift
    if "$@" >/dev/null 2>&1 </dev/null; then missed "$name"; else passed "$name"; fi
}

absent() {
    for file in "$@"; do [ ! -e "$file" ] || return 1; done
}

mode_is() { [ "$(stat -c %a "$1")" = "$2" ]; }

# The commands with their files in order; options may follow
keygen() { "$tool" keygen --set "$1" --shares "$2" --key "$3" --public "$4" $5; }
sign() { "$tool" sign --key "$1" --message "$2" --out "$3" $4 $5; }
verify() { "$tool" verify --public "$1" --message "$2" --signature "$3"; }
slip_sign() { "$tool" slip sign --key "$1" --movement "$2" --track "$3" --text "$4" --out "$5" $6 $7; }
slip_read() { "$tool" slip read --public "$1" "$2"; }

# flip FILE PLACE: changes one bit of a byte
flip() {
    byte=$(od -An -tu1 -j "$2" -N 1 "$1")
    printf "\\$(printf %03o $((byte ^ 1)))" | dd of="$1" bs=1 seek="$2" conv=notrunc 2>/dev/null
}

# bytes COUNT OCTAL: so many of one byte
bytes() { head -c "$1" /dev/zero | tr '\000' "\\$2"; }

# ---- What is this?

expect 'no command' 2 'Try: koivrast help' "$tool"
for word in help --help -h; do expect "$word" 0 'koivrast keygen --set 128 --shares 4' "$tool" $word; done
expect 'help help' 0 'Exit status' "$tool" help help
expect 'version' 0 '^koivrast [0-9]' "$tool" --version
for command in keygen open refresh sign verify 'slip sign' 'slip read' inspect lengths bench-demo; do
    expect "help $command" 0 "^koivrast $command " "$tool" help $command
    expect "$command --help" 0 '^Example' "$tool" $command --help
    expect "$command in the list" 0 "^  $command  " "$tool" help
done
expect 'misspelt command' 2 "there is no command 'sgin'; did you mean sign?" "$tool" sgin
expect 'help of no command' 2 "there is no command 'fly'" "$tool" help fly
expect 'slip alone' 2 'slip: sign or read?' "$tool" slip
expect 'misspelt slip' 2 "there is no command 'slpi'; did you mean slip?" "$tool" slpi sign
expect 'misspelt slip read' 2 "there is no command 'slip raed'; did you mean slip read?" "$tool" slip raed order.slip
holds 'misspelt slip read: hint' grep -q '^Try: koivrast help slip$' .said
expect 'help of a misspelt slip sign' 2 'did you mean slip sign?' "$tool" help slip sing
expect 'help of two commands' 2 'of one command at a time' "$tool" help sign verify
expect 'help of two commands of slips' 2 'of one command at a time' "$tool" help slip sign slip read
for words in 'help slip' 'slip --help' 'slip -h'; do expect "$words" 0 '^koivrast slip read --public FILE SLIP$' "$tool" $words; done

# ---- The five minutes of the help

sh -c "$("$tool" help | sed -n '/^Five minutes/,/^$/s/^  koivrast/"$tool"/p; /^Five minutes/,/^$/s/^  echo/echo/p')" >.said 2>&1
holds 'five minutes' grep -q '^good: order.sig is the signature of order.txt by gate.pub (set 128)$' .said
holds 'signing key for the owner only' mode_is gate.key 600
holds 'public key for all' mode_is gate.pub 644
holds 'signature for all' mode_is order.sig 644

expect 'verify' 0 '^good: ' verify gate.pub order.txt order.sig
expect 'verify, options with =' 0 '^good: ' "$tool" verify --signature=order.sig --message=order.txt --public=gate.pub
expect 'message by pipe' 0 '^good: ' eval 'cat order.txt | verify gate.pub - order.sig'
expect 'signature by pipe' 0 '^good: ' eval 'cat order.sig | verify gate.pub order.txt -'
expect 'public key by pipe' 0 '^good: ' eval 'cat gate.pub | verify - order.txt order.sig'
expect 'signed and verified by pipe' 0 '^good: ' eval 'sign gate.key - - <order.txt | verify gate.pub order.txt -'
expect 'two files of standard input' 2 'only one file can be' verify gate.pub - -
keygen 192 2 pipe.key - >pipe.pub
expect 'sign with the key of the pipe' 0 'pipe.sig: signature of set 192' sign pipe.key order.txt pipe.sig
expect 'public key to standard output' 0 '^good: ' verify pipe.pub order.txt pipe.sig

# ---- Opening and refreshing

expect 'open' 0 'gate.open: expanded key of set 128 with 4 shares' "$tool" open gate.key --out gate.open
holds 'expanded key for the owner only' mode_is gate.open 600
expect 'refresh' 0 'fresh.open: expanded key of set 128 with 4 shares, shared anew' "$tool" refresh gate.open --out fresh.open
holds 'refreshed key for the owner only' mode_is fresh.open 600
fails 'the shares are new' cmp gate.open fresh.open
cp -p fresh.open before.open
expect 'refresh in place' 0 'shared anew' "$tool" refresh fresh.open --out ./fresh.open
fails 'the shares are new in place' cmp before.open fresh.open
holds 'still for the owner only' mode_is fresh.open 600
ln -s fresh.open link.open
expect 'refresh behind a link' 0 'shared anew' "$tool" refresh link.open --out link.open
holds 'the link is still one' test -L link.open
for key in gate.open fresh.open link.open; do
    expect "sign with $key" 0 'signature of set 128, attempt' sign $key order.txt $key.sig
    expect "verify what $key signed" 0 '^good: ' verify gate.pub order.txt $key.sig
done

# ---- All sets and share counts

for set in 128 192 256; do
    for shares in 1 2 4 8 16 32; do
        n=$set-$shares
        expect "keygen $n" 0 "signing key of set $set with $shares share" keygen $set $shares $n.key $n.pub
        expect "open $n" 0 "expanded key of set $set with $shares share" "$tool" open $n.key --out $n.open
        expect "sign $n" 0 "signature of set $set" sign $n.open order.txt $n.sig --attempts 16
        expect "verify $n" 0 '^good: ' verify $n.pub order.txt $n.sig
        expect "inspect $n" 0 'same public key in these 3 files: yes' "$tool" inspect $n.key $n.open $n.pub $n.sig
    done
    for key in $set-2.key $set-4.open; do
        expect "slip sign $key" 0 "$key.slip: slip of set $set, attempt" slip_sign $key 300 7 order.txt $key.slip
        expect "slip read $key" 0 "^good: $key.slip is signed by ${key%.*}.pub (set $set)\$" slip_read ${key%.*}.pub $key.slip
        holds "slip read $key: movement" grep -q '^  movement  *300$' .said
    done
    expect "bench-demo $set" 0 '^six equal signatures: yes$' "$tool" bench-demo --set $set
    holds "bench-demo $set: shares differ" grep -q '^shares differ: yes$' .said
    holds "bench-demo $set: verifier" grep -q '^verifier: good$' .said
    rows=$(awk '$1 ~ /^[0-9]+$/ && $2 ~ /^[0-9]+$/ { print $NF }' .said)
    holds "bench-demo $set: six rows" test "$(echo "$rows" | wc -l)" -eq 6
    holds "bench-demo $set: one fingerprint" test "$(echo "$rows" | sort -u | wc -l)" -eq 1
done
expect 'bench-demo without a set' 0 '^set 128, attempt' "$tool" bench-demo
fails 'no progress where nobody reads' grep -q '6 of 6' .said
expect 'bench-demo with progress' 0 '6 of 6: signing, share count 32' "$tool" bench-demo --progress

# ---- Inspecting

expect 'inspect a signature' 0 'bits used .* of 92192 (' "$tool" inspect order.sig
for line in 'signature of set 128, 11524 bytes' 'challenge hash' 'form  *in order' 'largest hint .* of 2 (' \
    'largest response .* of 41954689765971 (' 'squared norm .* of 14656575897 (' 'bounds  *passed' ' 0  *[0-9]* |##*$'; do
    holds "inspect a signature: $line" grep -q "$line" .said
done
fails 'inspect a signature: nothing over the bounds' grep -q -e 'decided by' -e 'coefficients read' .said
expect 'inspect a signing key' 0 'share seeds  *3 x 16 bytes' "$tool" inspect gate.key
fails 'inspect tells no secret' grep -q "$(od -An -tx1 -j 2256 -N 16 gate.key | tr -d ' ')" .said
holds 'inspect tells who can read' grep -q 'the owner only (mode 600)' .said
expect 'inspect an expanded key' 0 'words  *8192 = 4 polynomials x 4 shares x 512' "$tool" inspect gate.open
digest=$(od -An -v -tx1 -j 2256 -N 16 gate.open | tr -d ' \n')
holds 'inspect an expanded key: digest' grep -q "digest  *$digest... (32 bytes)\$" .said
holds 'inspect an expanded key: true' grep -q 'digest is true  *yes$' .said
expect 'inspect a public key' 0 'below 125  *all coefficients' "$tool" inspect gate.pub
expect 'inspect standard input' 0 'standard input: public key of set 128' eval '"$tool" inspect - <gate.pub'
expect 'inspect keys that differ' 0 'same public key in these 2 files: no' "$tool" inspect gate.pub 128-4.pub
expect 'inspect goes on after a missing file' 2 'gate.pub: public key' "$tool" inspect missing gate.pub
expect 'inspect what is nothing' 1 'order.txt has 16 bytes: no key and no signature is that long' "$tool" inspect order.txt

# ---- Slips

mv order.txt short.txt
echo "Release tram 17 from track 4 at 05:42." >order.txt
expect 'slip sign' 0 'order.slip: slip of set 128, attempt' slip_sign gate.key 17 4 order.txt order.slip
holds 'slip for all' mode_is order.slip 644
expect 'slip read' 0 '^good: order.slip is signed by gate.pub (set 128)$' slip_read gate.pub order.slip
holds 'slip read: movement' grep -q '^  movement  *17$' .said
holds 'slip read: track' grep -q '^  track  *4$' .said
holds 'slip read: text' grep -q '^  text  *"Release tram 17 from track 4 at 05:42.\\n" (39 bytes)$' .said
holds 'slip read: nothing else' test "$(grep -c '' .said)" -eq 4
sh -c "$("$tool" help slip sign | sed -n '/^Examples/,$s/^  //p' | sed 's/koivrast/"$tool"/; s/order.slip/x.slip/')" >.said 2>&1
holds 'slip sign: examples of the help' test "$(grep -c 'slip: slip of set 128, attempt' .said)" -eq 2
sh -c "$("$tool" help slip read | sed -n 's/^  koivrast/"$tool"/p')" >.said 2>&1
holds 'slip read: example of the help' grep -q '^good: order.slip is signed by gate.pub' .said
expect 'slip of the example' 0 '^  text  *"Stop." (5 bytes)$' slip_read gate.pub stop.slip
expect 'slip read, option with =' 0 '^good: ' "$tool" slip read order.slip --public=gate.pub
expect 'slip by pipe' 0 '^good: standard input is signed by gate.pub' eval 'slip_read gate.pub - <order.slip'
expect 'public key of a slip by pipe' 0 'is signed by standard input' eval 'slip_read - order.slip <gate.pub'
expect 'slip signed and read by pipe' 0 '^good: ' eval 'slip_sign gate.key 1 2 - - <order.txt | slip_read gate.pub -'
expect 'slip and key of one standard input' 2 'only one file can be' slip_read - -
: >empty
expect 'empty text' 0 'empty.slip: slip' slip_sign gate.key 0 0 empty empty.slip
expect 'empty text read' 0 '^  text  *"" (0 bytes)$' slip_read gate.pub empty.slip
holds 'smallest slip' test "$(stat -c %s empty.slip)" -eq $((10 + 11524))
bytes 512 056 >full.txt
expect 'text of 512 bytes' 0 'full.slip: slip' slip_sign gate.key 65535 255 full.txt full.slip
expect 'text of 512 bytes read' 0 '^  text  *"\.*" (512 bytes)$' slip_read gate.pub full.slip
holds 'largest numbers' grep -q '^  movement  *65535$' .said
holds 'largest slip' test "$(stat -c %s full.slip)" -eq $((10 + 512 + 11524))
printf '\033[31mG\303\274ltig\377\ngood: forged\n' >strange.txt
slip_sign gate.key 1 2 strange.txt strange.slip >/dev/null
expect 'strange text' 0 '^  text  *"\\u{1b}\[31mGültig\\xff\\ngood: forged\\n" (27 bytes)$' slip_read gate.pub strange.slip
holds 'strange text: one line is good' test "$(grep -c '^good: ' .said)" -eq 1

# byte PLACE OCTAL: the slip of the first session with another byte
byte() { { head -c "$1" order.slip && printf "\\$2" && tail -c +$(($1 + 2)) order.slip; } >altered.slip; }
# refused NAME PATTERN: the altered slip, with its number and nothing of its fields
refused() {
    expect "$1" 1 "$2" slip_read gate.pub altered.slip
    fails "$1: no field is told" grep -q -e movement -e '^  ' -e good .said
}
byte 0 164 && refused 'check 17' 'refused, 17: Does the slip begin with the mark TMR? No'
byte 3 002 && refused 'check 18' 'refused, 18: Is the version of the slip 1? No'
holds 'check 18: what to do' grep -q 'Do not accept it: it is damaged, or of a version that is not read here' .said
byte 8 050 && refused 'check 19, longer text told' 'refused, 19: Has the slip its 10 leading bytes'
byte 9 003 && refused 'check 19, text over 512' 'refused, 19: '
head -c 11572 order.slip >altered.slip && refused 'check 19, cut' 'refused, 19: '
holds 'check 19: what to do' grep -q 'altered.slip has 11572 bytes. Do not accept it: it is cut, lengthened or damaged' .said
cat order.slip empty.slip >altered.slip && refused 'check 19, two in one' 'refused, 19: '
head -c 7 order.slip >altered.slip && refused 'check 19, leading bytes' 'refused, 19: '
head -c 3 order.slip >altered.slip && refused 'check 18, no version' 'refused, 18: '
cp empty altered.slip && refused 'check 17, nothing' 'refused, 17: '
for place in 5 6 7 10 48 49 90 500 11572; do
    cp order.slip altered.slip && flip altered.slip $place
    refused "slip with byte $place altered" 'refused, 1[456]: '
done
byte 5 022 && refused 'check 16, other movement' 'refused, 16: Is the recomputed challenge hash equal? No'
holds 'check 16: what to do' grep -q 'Do not accept it: it was changed' .said
holds 'check 16: where to look' grep -q 'What it says, not verified, `koivrast inspect` tells' .said
expect 'inspect what was altered' 0 '^  movement  *18$' "$tool" inspect altered.slip
holds 'inspect what was altered: not verified' grep -q '^  signer  *not verified' .said
expect 'slip and other key' 1 'refused, 16: ' slip_read 128-4.pub order.slip
expect 'slip and key of another set' 1 'refused, 3: ' slip_read 192-1.pub order.slip
holds 'slip and key of another set: both' grep -q 'order.slip is a slip of set 128, 192-1.pub a public key of set 192' .said
expect 'endless slip' 1 'refused, 19: ' eval 'cat order.slip /dev/zero | slip_read gate.pub -'

expect 'inspect a slip' 0 '^order.slip: slip of set 128, 11573 bytes$' "$tool" inspect order.slip
for line in 'movement  *17$' 'track  *4$' 'text  *"Release .*\\n" (39 bytes)$' 'signer  *not verified' 'form  *in order' 'bits used .* of 92192 ('; do
    holds "inspect a slip: $line" grep -q "^  $line" .said
done
fails 'inspect a slip: no verdict' grep -q good .said
{ head -c 6573 order.slip && bytes 5000 377; } >altered.slip
expect 'inspect a slip, check 14' 1 'form  *refused, 14: ' "$tool" inspect altered.slip
byte 3 002 && expect 'inspect a slip, check 18' 1 'refused, 18: ' "$tool" inspect altered.slip
byte 8 050 && expect 'inspect a slip, check 19' 1 'refused, 19: ' "$tool" inspect altered.slip
holds 'inspect a slip, check 19: length' grep -q 'altered.slip has 11573 bytes' .said
# a slip of set 192 that is as long as a signing key of set 128 with 4 shares
bytes 294 056 >long.txt && slip_sign 192-1.key 1 2 long.txt long.slip >/dev/null
holds 'slip as long as a key' test "$(stat -c %s long.slip)" -eq "$(stat -c %s gate.key)"
expect 'slip as long as a key, inspected' 0 'long.slip: slip of set 192' "$tool" inspect long.slip
expect 'slip as long as a key, read' 0 '^good: ' slip_read 192-1.pub long.slip
expect 'slip as long as a key, as key' 1 'refused, 3: ' slip_sign long.slip 1 2 order.txt y.slip
holds 'slip as key' grep -q 'long.slip has 14848 bytes, like a slip of set 192, which `koivrast slip read` takes' .said
expect 'slip as signature' 1 'like a slip of set 128, which `koivrast slip read` takes' verify gate.pub order.txt order.slip
expect 'slip as public key' 1 'A public key is what keygen writes to --public' slip_read order.slip order.slip
expect 'signature as slip' 1 'order.sig has 11524 bytes, like a signature of set 128' slip_read gate.pub order.sig
holds 'what a slip is' grep -q 'A slip is what `koivrast slip sign` writes' .said
expect 'text as slip' 1 'refused, 17: ' slip_read gate.pub order.txt

bytes 513 056 >over.txt
expect 'check 19 in signing' 1 'refused, 19: ' slip_sign gate.key 1 2 over.txt y.slip
holds 'check 19 in signing: what to do' grep -q 'over.txt has more than 512 bytes. Take a text of at most 512 bytes' .said
expect 'endless text' 1 'refused, 19: ' slip_sign gate.key 1 2 /dev/zero y.slip
expect 'check 6 of a slip' 1 'refused, 6: ' slip_sign gate.key 1 2 order.txt y.slip --attempts 0
expect 'check 12 of a slip' 1 'refused, 12: .* (after 2 attempts)' \
    eval '{ head -c 2288 128-4.open && tail -c +2289 gate.open; } >mixed.open; slip_sign mixed.open 1 2 order.txt y.slip --attempts 2'
for number in 65536 -1 99999999999999 tram; do
    expect "movement $number" 2 "slip sign: --movement wants a number from 0 to 65535, not '$number'" \
        slip_sign gate.key $number 2 order.txt y.slip
done
expect 'track 256' 2 "slip sign: --track wants a number from 0 to 255, not '256'" slip_sign gate.key 1 256 order.txt y.slip
expect 'slip without a track' 2 'slip sign: missing option --track' \
    "$tool" slip sign --key gate.key --movement 1 --text order.txt --out y.slip
holds 'slip without a track: hint' grep -q '^Try: koivrast help slip sign$' .said
expect 'slip sign, misspelt option' 2 'no option --trak; did you mean --track?' "$tool" slip sign --trak 4
expect 'slip read of nothing' 2 'slip read: no file is named' "$tool" slip read --public gate.pub
expect 'slip read of two' 2 "'empty.slip' is one word too many" "$tool" slip read --public gate.pub order.slip empty.slip
expect 'slip over its key' 2 'key and --out name the same file' slip_sign gate.key 1 2 order.txt ./gate.key --force
expect 'slip over its text' 2 'text and --out name the same file' slip_sign gate.key 1 2 order.txt order.txt --force
expect 'key of a slip from standard input' 2 'read from a file' slip_sign - 1 2 order.txt y.slip
cp order.slip kept.slip
expect 'slip over a slip' 2 'order.slip: exists already' slip_sign gate.key 17 4 order.txt order.slip
holds 'the slip is as it was' cmp order.slip kept.slip
expect 'slip with force' 0 'order.slip: slip' slip_sign gate.key 17 4 order.txt order.slip --force
fails 'a new slip' cmp order.slip kept.slip
expect 'the new slip' 0 '^good: ' slip_read gate.pub order.slip
expect 'missing slip' 2 '^koivrast: missing.slip: No such file or directory$' slip_read gate.pub missing.slip
expect 'missing text' 2 '^koivrast: missing.txt: No such file' slip_sign gate.key 1 2 missing.txt y.slip
expect 'slip to a full standard output' 2 'standard output: No space left' eval 'slip_sign gate.key 1 2 order.txt - >/dev/full'
expect 'fields to a full standard output' 2 'standard output: No space left' eval 'slip_read gate.pub order.slip >/dev/full'
cp -p gate.open false.open && flip false.open 2256
expect 'slip with a false digest' 0 '^koivrast: warning: false.open: ' slip_sign false.open 1 2 order.txt false.slip
expect 'slip with a false digest read' 1 'refused, 16: ' slip_read gate.pub false.slip
holds 'no refused slip has left a file' absent y.slip
rm x.slip false.open mixed.open
mv short.txt order.txt

# ---- What a signing call takes

# lengths_are NAME NUMBERS OPTIONS...: just these rows
lengths_are() {
    name=$1 numbers=$2
    shift 2
    "$tool" lengths "$@" >.said 2>&1 </dev/null
    holds "$name" test "$(tail -n +2 .said | awk '{ print $NF }' | tr '\n' ' ')" = "$numbers "
    holds "$name: names" test "$(tail -n +2 .said | sed 's/^  //; s/  *[0-9]*$//' | tr '\n' ',')" = \
        'noise seed bytes,mask seed bytes,work words,work buffer bytes,'
    holds "$name: one column" test "$(awk 'NR > 1 { print length($0) }' .said | sort -u | wc -l)" -eq 1
}
lengths_are 'lengths' '9216 256 33792 270336' --set 128 --shares 4 --attempts 8
holds 'lengths: of what' grep -q '^set 128, share count 4, attempts 8$' .said
lengths_are 'lengths, the least' '1152 32 15360 122880' --set 128 --shares 1 --attempts 1
lengths_are 'lengths, 16 attempts if not given' '1048576 512 308224 2465792' --shares=32 --set=256
holds 'lengths, 16 attempts if not given: said' grep -q 'attempts 16$' .said
lengths_are 'lengths, 192' '36864 128 68608 548864' --set 192 --shares 8 --attempts 4
sh -c "$("$tool" help lengths | sed -n 's/^  koivrast/"$tool"/p')" >.said 2>&1
holds 'lengths: example of the help' grep -q '^  noise seed bytes  *9216$' .said
expect 'lengths, check 1' 1 'refused, 1: Is the set' "$tool" lengths --set 127 --shares 3 --attempts 0
holds 'lengths, check 1: what to do' grep -q 'Take --set 128, 192 or 256' .said
expect 'lengths, check 2' 1 'refused, 2: Is the share count' "$tool" lengths --set 128 --shares 3 --attempts 0
holds 'lengths, check 2: what to do' grep -q 'Take --shares 1, 2, 4, 8, 16 or 32' .said
for attempts in 0 17 99999999999999; do
    expect "lengths, check 6, $attempts" 1 'refused, 6: Are the allowed attempts' \
        "$tool" lengths --set 128 --shares 4 --attempts $attempts
    holds "lengths, check 6, $attempts: what to do" grep -q 'Take --attempts from 1 to 16' .said
    fails "lengths, check 6, $attempts: no number" grep -q 'bytes' .said
done
expect 'lengths of no set' 2 'lengths: missing options --set, --shares' "$tool" lengths
expect 'lengths, no number' 2 "attempts wants a number, not 'many'" "$tool" lengths --set 128 --shares 4 --attempts many
expect 'lengths, too many words' 2 "'gate.key' is one word too many" "$tool" lengths --set 128 --shares 4 gate.key
expect 'lengths to a full standard output' 2 'standard output: No space left' \
    eval '"$tool" lengths --set 128 --shares 4 >/dev/full'

# ---- Refusals, by their number

expect 'check 1' 1 'refused, 1: Is the set 128, 192 or 256? No' keygen 129 4 x.key x.pub
expect 'check 1 in the demonstration' 1 'refused, 1: ' "$tool" bench-demo --set 512
expect 'check 2' 1 'refused, 2: Is the share count' keygen 128 3 x.key x.pub
expect 'a count beyond all numbers' 1 'refused, 2: ' keygen 128 99999999999999 x.key x.pub
: >empty
expect 'check 3, empty key' 1 'refused, 3: Is the key exactly as long' sign empty order.txt x.sig
holds 'check 3: length found' grep -q 'empty has 0 bytes' .said
holds 'check 3: lengths of signing keys' grep -q 'set 128: 14800, 14816, 14848, 14912, 15040, 15296 bytes' .said
holds 'check 3: lengths of expanded keys' grep -q 'set 256: .*, 921632 bytes' .said
head -c 14000 gate.key >cut.key
expect 'cut key' 1 'cut.key has 14000 bytes' "$tool" open cut.key --out x.open
expect 'endless key' 1 'has more than 921632 bytes' sign /dev/zero order.txt x.sig
expect 'signature as key' 1 'order.sig has 11524 bytes, like a signature of set 128' sign order.sig order.txt x.sig
expect 'public key as key' 1 'gate.pub has 2256 bytes, like a public key of set 128' sign gate.pub order.txt x.sig
holds 'what a signing key is' grep -q 'A signing key is what keygen writes to --key' .said
expect 'signing key as public key' 1 'A public key is what keygen writes to --public' verify gate.key order.txt order.sig
expect 'expanded key opened again' 1 'like an expanded key of set 128 with 4 shares' "$tool" open gate.open --out x.open
expect 'signing key refreshed' 1 'An expanded key is what `koivrast open` makes' "$tool" refresh gate.key --out x.open
expect 'empty public key' 1 'set 192: 3160 bytes' verify empty order.txt order.sig
bytes 2256 377 >bad.pub
expect 'check 4' 1 'refused, 4: Are all public key coefficients below 125' verify bad.pub order.txt order.sig
expect 'check 4 in inspect' 1 '125..127' "$tool" inspect bad.pub
{ head -c 14000 gate.key && bytes 848 377; } >bad.key
expect 'check 5, signing key' 1 'refused, 5: Are all words of the full share' sign bad.key order.txt x.sig
{ head -c 67816 gate.open && bytes 8 377; } >bad.open
expect 'check 5, expanded key' 1 'The key is damaged: do not use it' "$tool" refresh bad.open --out x.open
expect 'check 5 in inspect' 1 'contents  *refused, 5: ' "$tool" inspect bad.open
expect 'check 6, no attempt' 1 'refused, 6: ' sign gate.key order.txt x.sig --attempts 0
expect 'check 6, 17 attempts' 1 'Take --attempts from 1 to 16' sign gate.key order.txt x.sig --attempts=17
bytes 4096 101 >long
expect 'message of 4096 bytes' 0 'long.sig' sign gate.key long long.sig
expect 'message of 4096 bytes verified' 0 '^good: ' verify gate.pub long long.sig
bytes 4097 101 >longer
expect 'check 9 in signing' 1 'refused, 9: ' sign gate.key longer x.sig
holds 'check 9: sign the hash' grep -q 'Sign its hash' .said
expect 'check 9 in verifying' 1 'refused, 9: ' verify gate.pub longer long.sig
expect 'check 9 before 13' 1 'refused, 9: ' verify gate.pub /dev/zero empty
expect 'empty message' 0 'empty.sig' sign gate.key empty empty.sig
expect 'empty message verified' 0 '^good: ' verify gate.pub /dev/null empty.sig
{ head -c 2288 128-4.open && tail -c +2289 gate.open; } >mixed.open
expect 'check 12' 1 'refused, 12: .* (after 3 attempts)' sign mixed.open order.txt x.sig --attempts 3
expect 'check 13, cut pipe' 1 'refused, 13: ' eval 'head -c 5000 order.sig | verify gate.pub order.txt -'
holds 'check 13: lengths' grep -q 'standard input has 5000 bytes. .* set 128, whose signatures have 11524' .said
expect 'check 13, other set' 1 'like a signature of set 192' verify gate.pub order.txt 192-1.sig
expect 'check 13, public key' 1 'like a public key of set 128' verify gate.pub order.txt gate.pub
{ head -c 6524 order.sig && bytes 5000 377; } >bad.sig
expect 'check 14' 1 'refused, 14: ' verify gate.pub order.txt bad.sig
expect 'check 14 in inspect' 1 'form  *refused, 14: ' "$tool" inspect bad.sig
{ bytes 32 000 && bytes 1 037 && bytes 11491 000; } >wide.sig
expect 'check 15' 1 'refused, 15: ' verify gate.pub order.txt wide.sig
expect 'check 15 in inspect' 1 'largest hint  *5 of 2 (250.0 %)' "$tool" inspect wide.sig
holds 'check 15: what decided' grep -q 'decided by  *hint, polynomial 0, place 0: 5, above its limit, 2$' .said
holds 'check 15: what was read' grep -q 'coefficients read  *1 of 4608$' .said
echo 'release tram 18' >other.txt
expect 'check 16, other message' 1 'refused, 16: Is the recomputed challenge hash equal? No' \
    verify gate.pub other.txt order.sig
expect 'check 16, other key' 1 'refused, 16: ' verify 128-4.pub order.txt order.sig
for place in 0 31 40 400 3000 11000 11523; do
    cp order.sig altered.sig && flip altered.sig $place
    expect "byte $place altered" 1 'refused, 1[456]: ' verify gate.pub order.txt altered.sig
done
holds 'no refused command has left a file' absent x.key x.pub x.open x.sig

# ---- Expanded keys as written before the digest was kept in them

{ head -c 2256 gate.open && tail -c +2289 gate.open; } >old.open
old='old.open has 67792 bytes, like an expanded key of set 128 with 4 shares as written before the digest was kept in it'
again='Expand the signing key again with `koivrast open`'
for command in open refresh inspect; do
    out=$([ $command = inspect ] || echo --out x.open)
    expect "$command an old expanded key" 1 "$old" "$tool" $command old.open $out
    holds "$command an old expanded key: what to do" grep -q "$again" .said
done
expect 'sign with an old expanded key' 1 "$old" sign old.open order.txt x.sig
holds 'sign with an old expanded key: what to do' grep -q "$again" .said
expect 'verify by an old expanded key' 1 "$old" verify old.open order.txt order.sig
holds 'verify by an old expanded key: what to do' grep -q "$again" .said
holds 'verify by an old expanded key: what was wanted' grep -q 'A public key is what keygen writes to --public' .said
expect 'an old expanded key as signature' 1 "$old" verify gate.pub order.txt old.open
for set in 128 192 256; do
    front=$(stat -c %s $set-32.pub)
    { head -c "$front" $set-32.open && tail -c +$((front + set / 4 + 1)) $set-32.open; } >old.open
    expect "old expanded key $set-32" 1 "like an expanded key of set $set with 32 shares as written before" \
        "$tool" inspect old.open
done
holds 'no old key has left a file' absent x.open x.sig

# ---- Expanded keys whose digest is false

meaning='signatures made with this key will be refused with 16'
for key in 128-4 192-2 256-8; do
    n=$(stat -c %s $key.pub)
    cp -p $key.open false.open && flip false.open "$n"
    expect "inspect a false digest, $key" 1 "digest is true  *no: $meaning" "$tool" inspect false.open
    holds "inspect a false digest, $key: the rest is in order" grep -q 'contents  *in order' .said
    expect "sign with a false digest, $key" 0 "^koivrast: warning: false.open: .*; $meaning\$" \
        sign false.open order.txt false.sig --force
    expect "refused, $key" 1 'refused, 16: ' verify $key.pub order.txt false.sig
    expect "refresh a false digest, $key" 0 "^koivrast: warning: false.open: .*; $meaning\$" \
        "$tool" refresh false.open --out still.open --force
    expect "the digest is carried on, $key" 1 'digest is true  *no: ' "$tool" inspect still.open
    holds "public key and digest are as they were, $key" cmp -n $((n + ${key%-*} / 4)) false.open still.open
    fails "the shares are not, $key" cmp false.open still.open
done
sign false.open order.txt - 2>.warning >false.sig
holds 'the warning is not in the signature' test "$(stat -c %s false.sig)" -eq 20330
holds 'the warning is one line' test "$(grep -c '' .warning)" -eq 1
{ head -c 2256 128-4.open && tail -c +2257 gate.open; } >mixed.open
expect 'a digest of another key' 1 'digest is true  *no: ' "$tool" inspect mixed.open
expect 'a true digest' 0 'signature of set 128' sign gate.open order.txt x.sig
fails 'no warning of a true digest' grep -q warning .said
expect 'a true digest refreshed' 0 'shared anew' "$tool" refresh gate.open --out x.open
fails 'no warning of a true digest refreshed' grep -q warning .said
rm x.sig x.open

# ---- Words that are wrong

expect 'no options' 2 'keygen: missing options --set, --shares, --key, --public' "$tool" keygen
expect 'missing option' 2 'sign: missing option --message' "$tool" sign --key gate.key --out x.sig
holds 'missing option: hint' grep -q '^Try: koivrast help sign$' .said
expect 'missing value' 2 'sign: --out needs a value' "$tool" sign --key gate.key --message order.txt --out
expect 'unknown option' 2 'there is no option --mesage; did you mean --message?' \
    "$tool" sign --key gate.key --mesage order.txt --out x.sig
expect 'doubled option' 2 'key is given twice' "$tool" sign --key gate.key --key gate.key --message order.txt --out x.sig
expect 'no file' 2 'inspect: no file is named' "$tool" inspect
expect 'too many files' 2 'is one word too many' "$tool" open gate.key other.key --out x.open
expect 'no number' 2 "set wants a number, not 'big'" keygen big 4 x.key x.pub
expect 'key and public key in one file' 2 'name the same file' keygen 128 4 x.key ./x.key
expect 'signature over its key' 2 'name the same file' sign gate.key order.txt ./gate.key --force
expect 'signature over its message' 2 'name the same file' sign gate.key order.txt order.txt --force
expect 'key from standard input' 2 'read from a file' sign - order.txt x.sig

# ---- Secrets stay in files of their owner

expect 'key to standard output' 2 'never written to standard output' keygen 128 4 - x.pub
expect 'expanded key to standard output' 2 'never written to standard output' "$tool" open gate.key --out -
expect 'expanded key to a pipe' 2 'plain file only' eval '"$tool" open gate.key --out /dev/stdout | cat; (exit 2)'
expect 'expanded key to a device' 2 'plain file only' "$tool" open gate.key --out /dev/null --force
holds 'the device is still one' test -c /dev/null
expect 'wide umask' 0 'keep it secret' eval '(umask 000; keygen 128 2 wide.key wide.pub)'
holds 'wide umask, narrow key' mode_is wide.key 600
chmod 644 wide.key
expect 'inspect warns of readers' 0 'others too: chmod 600 wide.key (mode 644)' "$tool" inspect wide.key
expect 'replaced key' 0 'keep it secret' keygen 128 2 wide.key wide.pub --force
holds 'replaced key, narrow again' mode_is wide.key 600

# ---- Files that are there stay as they are

cp gate.key kept.key && cp gate.pub kept.pub && cp gate.open kept.open && cp order.sig kept.sig
expect 'keygen over a key' 2 'gate.key: exists already and is left as it was; --force' keygen 128 4 gate.key x.pub
expect 'keygen over a public key' 2 'gate.pub: exists already' keygen 128 4 x.key gate.pub
expect 'open over a key' 2 'gate.open: exists already' "$tool" open gate.key --out gate.open
expect 'refresh over another key' 2 'gate.open: exists already' "$tool" refresh fresh.open --out gate.open
expect 'sign over a signature' 2 'order.sig: exists already' sign gate.key order.txt order.sig
for file in gate.key:kept.key gate.pub:kept.pub gate.open:kept.open order.sig:kept.sig; do
    holds "${file%:*} is as it was" cmp "${file%:*}" "${file#*:}"
done
ln -s nowhere/else dangling.key
expect 'keygen over a link to nothing' 2 'dangling.key: exists already' keygen 128 4 dangling.key x.pub
holds 'no half of a pair' absent x.key x.pub
ln -s nowhere/else dangling.sig
expect 'sign over a link to nothing' 2 'dangling.sig: exists already' sign gate.key order.txt dangling.sig
holds 'the link to nothing is still one' test -L dangling.sig
expect 'sign with force' 0 'order.sig: signature' sign gate.key order.txt order.sig --force
fails 'a new signature' cmp order.sig kept.sig
expect 'the new signature' 0 '^good: ' verify gate.pub order.txt order.sig

# ---- Trouble with files and the system

expect 'missing message' 2 '^koivrast: missing.txt: No such file or directory$' sign gate.key missing.txt x.sig
expect 'missing key' 2 '^koivrast: missing.key: No such file' sign missing.key order.txt x.sig
mkdir inner
expect 'folder as message' 2 'inner: Is a directory' sign gate.key inner x.sig
expect 'folder as key' 2 'inner: Is a directory' "$tool" open inner --out x.open
expect 'folder as output' 2 'inner: Is a directory' sign gate.key order.txt inner --force
expect 'folder to inspect' 2 'inner: Is a directory' "$tool" inspect inner
expect 'missing folder' 2 'nowhere/x.sig: No such file or directory' sign gate.key order.txt nowhere/x.sig
expect 'file as folder' 2 'order.txt/x.sig: Not a directory' sign gate.key order.txt order.txt/x.sig
expect 'folder of the kernel' 2 '^koivrast: /proc/x.open: ' "$tool" open gate.key --out /proc/x.open
expect 'public key cannot be written' 2 'order.txt/x.pub: Not a directory' keygen 128 4 x.key order.txt/x.pub
expect 'signing key cannot be written' 2 'nowhere/x.key: No such file' keygen 128 4 nowhere/x.key x.pub
holds 'no half of a pair is left' absent x.key x.pub
if [ "$(id -u)" -ne 0 ]; then
    chmod 555 inner
    expect 'unwritable folder' 2 'inner/x.sig: Permission denied' sign gate.key order.txt inner/x.sig
    chmod 000 kept.key
    expect 'unreadable key' 2 'kept.key: Permission denied' "$tool" open kept.key --out x.open
fi
# writing stops in the middle: no file grows beyond 4096 bytes
limited() { (trap '' XFSZ && ulimit -f 8 && "$@"); }
cp order.sig kept.sig
expect 'key cut in writing' 2 'x.key: File too large' limited keygen 128 4 x.key x.pub
expect 'signature cut in writing' 2 'order.sig: File too large' limited sign gate.key order.txt order.sig --force
holds 'the old signature is there' cmp order.sig kept.sig
expect 'refresh cut in writing' 2 'fresh.open: File too large' limited "$tool" refresh fresh.open --out fresh.open
expect 'the old sharing is there' 0 'contents  *in order' "$tool" inspect fresh.open
holds 'no half of a key is left' absent x.key x.pub
expect 'full device' 2 '/dev/full: No space left on device' sign gate.key order.txt /dev/full
expect 'full standard output' 2 'standard output: No space left on device' eval '"$tool" inspect order.sig >/dev/full'
expect 'signature to a full standard output' 2 'standard output: No space left' eval 'sign gate.key order.txt - >/dev/full'
expect 'verdict to a full standard output' 2 'standard output: No space left' eval 'verify gate.pub order.txt order.sig >/dev/full'
(
    sleep 1
    "$tool" inspect order.sig 2>.stderr
    echo $? >.status
) | true
while [ ! -s .status ]; do sleep 1; done
holds 'reader gone: exit status 2' grep -q '^2$' .status
fails 'reader gone: not a word' test -s .stderr
first=$("$tool" inspect order.sig gate.pub 2>/dev/null | head -n 1)
holds 'first line only' test "$first" = 'order.sig: signature of set 128, 11524 bytes'
holds 'nothing half-written is left' nothing_half_written

echo "$checks checks, $failed failed"
[ "$failed" -eq 0 ]
