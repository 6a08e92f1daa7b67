#!/usr/bin/env bash
# Runs the program that the gate built on real files and streams. The last line counts the cases.
set -u
cd "$(dirname "$0")/.."
program="$PWD/crates/covsmv/out/covsmv"
place=$(mktemp -d)
trap 'rm -rf "$place"' EXIT
passed=0
failed=0

# expect NAME STATUS OUT ERR WORD..: the program, with these words, ends within a minute and writes so.
expect() {
    local name=$1 status=$2 out=$3 err=$4
    shift 4
    (cd "$place" && timeout 60 "$program" "$@") >"$place/.out" 2>"$place/.err" </dev/null
    judge "$name" "$status" "$?" "$out" "$err"
}

# judge NAME WANTED FOUND OUT ERR: compares a status, and what was written.
judge() {
    if [ "$2" = "$3" ] && printf '%b' "$4" | cmp -s - "$place/.out" && printf '%b' "$5" | cmp -s - "$place/.err"; then
        passed=$((passed + 1))
    else
        failed=$((failed + 1))
        echo "failed: $1: status $3, where $2 is wanted"
        diff <(printf '%b' "$4") "$place/.out"
        diff <(printf '%b' "$5") "$place/.err"
    fi
}

# stored STATUS NAME COMMAND SIGNAL..: on examples/NAME.smv the program writes the report that tests/reports holds.
stored() {
    local status=$1 name=$2 command=$3
    shift 3
    local signals=$*
    cp "examples/$name.smv" "$place/$name"
    (cd "$place" && timeout 60 "$program" "$command" "$name" "$@") >"$place/.out" 2>"$place/.err" </dev/null
    judge "$command $name $*" "$status" "$?" "$(cat "tests/reports/$name.$command${signals:+-${signals// /-}}")\n" ''
}

# the gate may keep what it proved before without building it anew
[ -x "$program" ] || ./covsmv init examples/arbiter.smv >"$place/.build" 2>&1
[ -x "$program" ] || { cat "$place/.build"; echo "there is no $program"; echo "0 passed, 1 failed"; exit 1; }

printf 'MODULE main\nVAR a : boolean; b : boolean;\nINIT !(a & b)\n' >"$place/model"
head -c 4097 /dev/zero | tr '\0' ' ' >"$place/long"
head -c 1048577 /dev/zero | tr '\0' ' ' >"$place/longer"
printf 'MODULE main INIT %s' "$(printf '%129s' '' | tr ' ' '(')" >"$place/open"
: >"$place/empty"
mkdir "$place/folder"
usage='usage: covsmv COMMAND MODEL [SIGNAL..] [OPTIONS]\n'

cp examples/lights.smv "$place/lights"
cp examples/cells.smv "$place/cells"
expect 'a model' 0 'initial\n  a=FALSE\n  a=TRUE,b=FALSE\n' '' init model
printf 'MODULE main VAR q : boolean; INIT !q TRANS next(q) & !q | !next(q) & q SPEC AG !q' >"$place/toggle"
printf 'MODULE main VAR q : boolean; TRANS FALSE SPEC AG q' >"$place/blocked"
deep() { printf 'MODULE main VAR q : boolean; INIT '; printf "%${1}s" '' | tr ' ' '('; printf "%${2}s" '' | tr ' ' '!'; printf q; printf "%${1}s" '' | tr ' ' ')'; }
deep 128 1000 >"$place/deep"
deep 129 0 >"$place/deeper"
expect 'a property that passes' 0 'no fair initial state\nspec 1 passes: AG q\n' '' check blocked
expect 'a property that fails' 1 'spec 1 fails: AG !q\n' '' check toggle
expect 'the deepest expression' 0 'initial\n  q=TRUE\n' '' init deep
expect 'an expression that is too deep' 3 '' 'model: TooDeep at 1:163\n' init deeper
expect 'too many open brackets' 3 '' 'model: TooDeep at 1:146\n' init open
cat >"$place/clients" <<'END'
MODULE main
VAR t : 1..3;
    a : client(t = 1); b : client(t = 2); c : client(t = 3);
ASSIGN init(t) := 1; next(t) := case t = 3 : 1; 1 : t + 1; esac;
FAIRNESS a.asks
FAIRNESS b.asks
SPEC AG !(a.holds & b.holds)
SPEC AG (a.asks -> AF a.holds)
SPEC AG (a.holds -> AX !a.holds)
SPEC AG AF b.holds
MODULE client(grant)
VAR state : {idle, ask, use};
DEFINE asks := state = ask; holds := state = use;
ASSIGN init(state) := idle;
  next(state) := case
    state = idle : {idle, ask};
    state = ask & grant : use;
    state = use : idle;
    1 : state;
  esac;
END
expect 'a model of several modules' 0 'spec 1 passes: AG !(a.holds & b.holds)\nspec 2 passes: AG (a.asks -> AF a.holds)\nspec 3 passes: AG (a.holds -> AX !a.holds)\nspec 4 passes: AG AF b.holds\n' '' check clients
cat >"$place/.clients-cover" <<'END'
spec 1 passes: AG !(a.holds & b.holds)
  signal a.holds
    covered
      t=3,a.state={idle,ask},b.state=use,c.state={idle,ask}
    uncovered
      t=1,a.state={idle,ask},b.state={idle,ask}
      t=2,b.state={idle,ask},c.state={idle,ask}
      t=3,a.state={idle,ask},b.state={idle,ask},c.state={idle,ask}
spec 2 passes: AG (a.asks -> AF a.holds)
  signal a.holds
    covered
      t=2,a.state=use,b.state={idle,ask},c.state={idle,ask}
    uncovered
      t=1,a.state={idle,ask},b.state={idle,ask}
      t=2,a.state={idle,ask},b.state={idle,ask},c.state={idle,ask}
      t=3,a.state={idle,ask},c.state={idle,ask}
spec 3 passes: AG (a.holds -> AX !a.holds)
  signal a.holds
    covered
      t=1,a.state=ask,b.state={idle,ask}
      t=3,a.state=idle,c.state={idle,ask}
    uncovered
      t=1,a.state=idle,b.state={idle,ask}
      t=2,b.state={idle,ask},c.state={idle,ask}
      t=3,a.state=ask,c.state={idle,ask}
spec 4 passes: AG AF b.holds
  signal a.holds
    covered
      none
    uncovered
      t=1,a.state={idle,ask},b.state={idle,ask}
      t=2,b.state={idle,ask},c.state={idle,ask}
      t=3,a.state={idle,ask},c.state={idle,ask}
END
expect 'coverage of an arbiter of three clients' 0 "$(cat "$place/.clients-cover")\n" '' cover clients a.holds
printf 'MODULE main VAR q : boolean; ASSIGN init(q) := FALSE; next(q) := !q; SPEC EX q' >"$place/some"
expect 'coverage of a property that asks for some path' 0 'spec 1 passes: EX q\n  signal q\n    covered\n      q=TRUE\n    uncovered\n      q=FALSE\n' '' cover some q
expect 'an unknown signal alone' 8 '' 'asked: UnknownSignal z\n' cover some z
sed 's/esac;$/esac/' "$place/clients" >"$place/unended"
expect 'a model of several modules with a fault' 3 '' 'model: Syntax at 5:1\n' check unended
{ printf 'MODULE main VAR\n'; for i in $(seq 4097); do echo "v$i : boolean;"; done; } >"$place/many"
expect 'too many variables' 3 '' 'model: TooLarge at 1:1\n' check many
{ printf 'MODULE main VAR a : m1; b : m1;\n'; for i in $(seq 60); do echo "MODULE m$i VAR a : m$((i + 1)); b : m$((i + 1));"; done; echo 'MODULE m61 VAR c : boolean;'; } >"$place/doubling"
expect 'instances that double at each level' 3 '' 'model: TooLarge at 1:1\n' check doubling
printf 'MODULE main VAR a : m(b); b : boolean; INIT a.c MODULE m(p) VAR c : boolean; INVAR c -> p' >"$place/later"
expect 'an argument that is declared behind its instance' 0 'initial\n  b=TRUE,a.c=TRUE\n' '' init later
expect 'modules with parameters and DEFINEs' 0 'initial\n  switch=FALSE\n  switch=TRUE,hall.works=FALSE\n  switch=TRUE,hall.works=TRUE,stairs.works=FALSE\n' '' init lights
cells='reachable\n  mode=idle,a.out=FALSE\n  mode=work,a.out=FALSE,b.out=FALSE\n  mode=rest,a.out=TRUE,b.out=FALSE\n'
expect 'the initial states of three modules' 0 'initial\n  mode=idle,a.out=FALSE,b.out=FALSE\n' '' init cells
expect 'the reachable states of three modules' 0 "$cells" '' reach cells
expect 'one cube and others' 0 'reachable\n  mode=idle,a.out=FALSE\n  more\n' '' reach cells --cubes 1
expect 'an option before the model' 0 'reachable\n  mode=idle,a.out=FALSE\n  more\n' '' reach --cubes=1 cells
expect 'a file behind two dashes' 0 "$cells" '' reach --nodes 1000 -- cells
expect 'a budget of no nodes' 2 '' "$usage" reach cells --nodes 0
expect 'an option that is given twice' 2 '' "$usage" reach cells --cubes 1 --cubes 2
expect 'an option of another command' 2 '' "$usage" check toggle --cubes 1
(cd "$place" && "$program" reach cells --nodes 1) >"$place/.out" 2>"$place/.full"
status=$?
sed 's/roots [0-9]*$/roots R/' "$place/.full" >"$place/.err"
judge 'a budget of one node' 6 "$status" '' 'nodes: held 1, budget 1, roots R\n'
{ echo 'MODULE main VAR'; for i in $(seq 60); do echo "b$i : boolean;"; done; } >"$place/free"
expect 'sixty free variables' 0 'reachable\n  all\n' '' reach free
{ printf 'MODULE main VAR'; for i in $(seq 0 39); do printf ' f%s : 0..1;' "$i"; done; printf ' INIT f0'; for i in $(seq 39); do printf ' + f%s' "$i"; done; echo ' = 3'; } >"$place/flags"
first=$(for i in $(seq 0 39); do printf 'f%s=%s,' "$i" $((i > 36)); done)
expect 'a sum of forty flags' 0 "initial\n  ${first%,}\n  more\n" '' init flags --cubes 1
printf 'MODULE main VAR x : 0..511; y : 0..511; ASSIGN init(x) := 0; next(x) := (x + y) mod 512;' >"$place/adder"
expect 'an accumulator of nine bits' 0 'reachable\n  all\n' '' reach adder
printf 'MODULE main VAR x : 0..511; ASSIGN init(x) := 0; next(x) := (x + 1) mod 512; SPEC AG AF x = 511' >"$place/nine"
expect 'a counter of nine bits' 0 'reachable\n  all\n' '' reach nine
expect 'a property of the counter' 0 'spec 1 passes: AG AF x = 511\n' '' check nine
printf 'MODULE main VAR x : 0..2; ASSIGN init(x) := 0; next(x) := x + 1; SPEC AG x = 0' >"$place/counter"
expect 'a counter that stops' 0 'reachable\n  all\n' '' reach counter
# models with 2^40 and with 2^22 reachable states
{ echo 'MODULE main VAR'; for i in $(seq 0 39); do echo "s$i : boolean;"; done; echo ASSIGN; for i in $(seq 1 2 39); do echo "next(s$i) := s$((i - 1));"; done; echo 'SPEC AG (s0 -> AX s1)'; } >"$place/pairs"
expect 'coverage of forty bits' 0 'spec 1 passes: AG (s0 -> AX s1)\n  signal s1\n    covered\n      s1=TRUE\n    uncovered\n      s1=FALSE\n' '' cover pairs s1
{ echo 'MODULE main VAR x : 0..15; y : 0..15;'; for i in $(seq 14); do echo "b$i : boolean;"; done; echo 'DEFINE even := x mod 2 = 0; odd_step := y mod 2 = 1; ASSIGN init(x) := 0; next(x) := (x + y) mod 16; SPEC AG (even & odd_step -> AX !even)'; } >"$place/steps"
expect 'coverage of a sum' 0 'spec 1 passes: AG (even & odd_step -> AX !even)\n  signal even\n    covered\n      x={1,3,5,7,9,11,13,15}\n    uncovered\n      x={0,2,4,6,8,10,12,14}\n' '' cover steps even
expect 'a signal that the model does not have' 8 '' 'asked: UnknownSignal z\n' cover pairs s1 z
expect 'an empty file to check' 3 '' 'model: Syntax at 1:1\n' check empty
expect 'an empty file' 3 '' 'model: Syntax at 1:1\n' init empty
expect 'a file of blanks' 3 '' 'model: Syntax at 1:4098\n' init long
expect 'a file that is too long' 3 '' 'model: FileTooLong at 1:1\n' init longer
expect 'a missing file' 4 '' 'read failed\n' init missing
expect 'a folder' 4 '' 'read failed\n' init folder
expect 'no words' 2 '' "$usage"
expect 'one word' 2 '' "$usage" init
expect 'an unknown command' 2 '' "$usage" frob model
expect 'a word that is not UTF-8' 2 '' '' init "$(printf '\377')"

# models as they are met in practice
practice='priority peterson handshake coherence traffic buffer elevator retry semaphore watchdog'
for name in $practice; do
    stored 0 "$name" reach
    stored 1 "$name" check
    stored 1 "$name" vacuity
done
stored 1 priority cover a.uses
stored 1 peterson cover p.inside
stored 1 handshake cover ack req
stored 1 coherence cover a.owns
stored 1 traffic cover car side.open
stored 1 buffer cover put
stored 1 elevator cover ground.lit
stored 1 retry cover answered wants_odd
stored 1 semaphore cover a.works
stored 1 watchdog cover fires hangs

# replays: the evidence of an example, one part wrong at a time, and both files read before either is judged
cp examples/door.smv "$place/door"
cp examples/door.evidence "$place/lasso"
expect 'evidence of an example' 0 'accepted\n' '' replay door lasso
sed 's/^spec 2/spec 4/' "$place/lasso" >"$place/other"
expect 'evidence of no specification' 1 'rejected: NoSuchSpec\n' '' replay door other
sed 's/^at open=TRUE,button=FALSE/at open=FALSE,button=FALSE/' "$place/lasso" >"$place/other"
expect 'evidence of a state that is not on the lasso' 1 'rejected: NotAt\n' '' replay door other
sed 's/^spec 2/spec 3/' "$place/lasso" >"$place/other"
expect 'evidence of another specification' 1 'rejected: NotRefuted\n' '' replay door other
head -n 8 "$place/lasso" >"$place/other"
expect 'evidence without its end' 3 '' 'evidence: Cut at line 9\n' replay door other
expect 'evidence that is not there' 4 '' 'read failed\n' replay door nothing
expect 'a replay of an empty model and no evidence' 4 '' 'read failed\n' replay empty nothing
expect 'a replay of an empty model' 3 '' 'model: Syntax at 1:1\n' replay empty lasso
expect 'a replay with an option' 2 '' "$usage" replay door lasso --nodes 5
expect 'a replay without evidence' 2 '' "$usage" replay door

# Six variables of which an odd number is true: each of the 32 states is a cube of its own.
odd() { printf '(%s) & !(%s) | !(%s) & (%s)' "$1" "$2" "$1" "$2"; }
parity=a
for name in b c d e f; do parity=$(odd "$parity" "$name"); done
printf 'MODULE main VAR a : boolean; b : boolean; c : boolean; d : boolean; e : boolean; f : boolean; INIT %s' "$parity" >"$place/parity"
(cd "$place" && "$program" init parity) >"$place/.out" 2>"$place/.err"
status=$?
lines=$(grep -c '^  a=[A-Z]*,b=[A-Z]*,c=[A-Z]*,d=[A-Z]*,e=[A-Z]*,f=[A-Z]*$' "$place/.out")
printf '%s\n' "$lines" >"$place/.out"
judge 'a parity of six variables' 0 "$status" '32\n' ''

(cd "$place" && "$program" init model) >&- 2>"$place/.err"
status=$?
: >"$place/.out"
judge 'standard output closed' 5 "$status" '' 'write failed\n'

(cd "$place" && "$program" init missing) >"$place/.out" 2>&-
status=$?
: >"$place/.err"
judge 'standard error closed' 4 "$status" '' ''

# a disk that is full, a reader that is gone, files of other kinds, and names that a terminal may not like
if [ -c /dev/full ]; then
    (cd "$place" && "$program" init model) >/dev/full 2>"$place/.err"
    status=$?
    : >"$place/.out"
    judge 'a disk that is full' 5 "$status" '' 'write failed\n'
    (cd "$place" && "$program" init model frob) >"$place/.out" 2>/dev/full
    status=$?
    : >"$place/.err"
    judge 'an error stream that is full' 2 "$status" '' ''
fi
mkfifo "$place/pipe"
exec 3<>"$place/pipe"
exec 4>"$place/pipe" 3>&-
(cd "$place" && exec "$program" init parity) >&4 2>"$place/.err"
status=$?
exec 4>&-
: >"$place/.out"
judge 'a reader that is gone' 5 "$status" '' 'write failed\n'
(cat "$place/model" >"$place/pipe" &)
expect 'a named pipe' 0 'initial\n  a=FALSE\n  a=TRUE,b=FALSE\n' '' init pipe
expect 'a device without bytes' 3 '' 'model: Syntax at 1:1\n' init /dev/null
expect 'a device without end' 3 '' 'model: FileTooLong at 1:1\n' init /dev/zero
expect 'a file name with a line end' 4 '' 'read failed\n' init "$(printf 'no\nsuch')"
expect 'a signal name with a line end' 8 '' 'asked: UnknownSignal no\nsuch\n' cover toggle "$(printf 'no\nsuch')"

echo "$passed passed, $failed failed"
[ "$failed" -eq 0 ]
