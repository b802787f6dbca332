#!/bin/sh
# Counts the places that docs/DESIGN-PASS.md speaks of, in the sources of every crate:
#   tools/places.sh          of this tree, as committed
#   tools/places.sh COMMIT   of a commit
#   tools/places.sh -l ...   the lines themselves
cd "$(dirname "$0")/.." || exit 1
show=-c
[ "$1" = -l ] && { show=-l; shift; }
commit=${1:-HEAD}

# One kind of place, by a pattern; a third argument leaves lines out.
count() {
    lines=$(git grep -nE "$2" "$commit" -- 'crates/*/src/*.rt' | grep -vE "${3:-^$}" | sed "s/^$commit://")
    if [ "$show" = -l ]; then
        echo "== $1"
        [ -z "$lines" ] || echo "$lines"
    else
        printf '%4d  %s\n' "$(printf '%s' "$lines" | grep -c .)" "$1"
    fi
}

count '1a  variants that hold a refusal beside those that hold an answer, as in a Result' '^    Refused\('
count '1b  a variant for nothing beside one for something, as in an Option' '^    Nothing,$' 'told\.rt|request\.rt'
count '1c  a flag or a stage, and the values beside it of which it tells whether they count' '^    (is_set_up: bool|tables: Tables|held: Machine<.*|immediate: Machine<.*|quiescing: Machine<.*),$|^    stage: Stage,$' 'enum'
count '1d  a truth value that stands for a refusal' 'fn push.* -> bool$'
count '1e  an error or a none taken apart to be made again' 'Err\(([a-z_]+|_)\) => (Err\(|return Err|Answer::Refused)|Ok\([a-z_()]*\) => (Ok\(|Answer::)'
count '1f  numbers of kinds turned into kinds by a match' '^ +\(?1(, [a-z]+)*\)? => '
count '1g  numbers of refusals in a match' 'Refusal::(OutOfRange|AlreadySetUp) => [0-9]+,$'
count '2a  functions that differ in which arguments are unused' '^fn (plain|single)\('
count '2b  arrays with a length, one for each kind of entry' '^ +(len|count): usize,$'
count '2c  a clock, a bound and cells, one for each memory' '^    cells: \[u64; 64\],$'
count '2d  makers of a machine that is not in use' '^fn (never|idle_immediate|idle_quiescing)\('
count '2e  searches for a write that is due' 'fn some_due'
count '2f  one field of a line after another read by the same call' 'first_number\((HEAD|CALL)_LIMIT'
count '2g  cells that differ by a constant' 'fn (lock|flag0|flag1|flag)_cell'
count '2h  runs of a list of calls' '^pub fn run<'
count '2i  the range of a thread or a cell asked again' 'thread >= 8|cell >= 64'
count '2j  set-up, the calls used up or the threads asked again' 'self\.is_set_up \{|self\.accepted >= 8000|thread >= self.layout.settings.threads'
count '3a  loops over an index or a number' 'for [a-z_]+ in [0-9a-z_]+\.\.' 'tests|for _ in'
count '3b  while loops' '^ *while '
count '3c  loops that count what they find' '(zeros|both) (\+= 1|= [a-z]+\.saturating_add)'
count '3d  a count that stands for an endless loop' 'for _ in 0\.\.u64::MAX'
count '4a  equality by hand, in a match' '=> false,$' 'tests'
count '4b  tests that take a value apart to compare it' '=> (true|false|thread == 0|step == 2),$|fn (shown|listed|equal)[<(]' '/src/(listing|litmus|tables|machine)|crates/(tables|held|listing|litmus)'
count '4c  conversions by `as`' ' as (u8|u16|u32|u64|usize)' 'tests'
count '4d  a result made an answer by hand' '^fn answer\('
count '4e  decimal digits by hand' "b'0' \+"
count '4f  copying by hand' '^impl.* (Copy|Clone) for '
count '5a  an array and a length handed on together' 'entries: &mut \[T\], len: usize'
count '5b  an invariant on the cells, a clock, a bound or a limit' '^    ghost (bound_low|bound_high|limit_low|limit_high|clock_end|places): .*(cells|bound|limit|clock)'
count '5c  a clause that makes the state of a machine from its fields' 'state M\.meaning self'
count '5d  a clause that makes the session of a listing from its fields' 'session_of '
count '5e  an operation and its two arguments handed on together' '(^fn|    fn|pub fn) .*(number|operation): usize, a: usize|^ +a: usize,$'
count '6a  arrays with a length or a start beside them' '^ +(len|count|start): usize,$'
count '6b  a row copied out of its array and put back' 'let mut (row|buffer) = self\.(threads|buffers)\[thread\]'
count '7a  matches on the operation and its step' 'match \(operation, self\.step'
count '7b  tables of functions, boxed or pointed at' 'Box<|dyn |: fn\(|impl Fn'

# Proofs: answers, and lines of the answers, invariants and lemmas.
answers=$(git grep -hE '^pub .* : goal\.' "$commit" -- 'crates/*/proofs/*Answers.antt' | grep -c .)
lines=$(git grep -hE '' "$commit" -- 'crates/*/proofs/*.antt' | grep -c .)
[ "$show" = -l ] || printf '%4d  8a  answers\n%4d  8b  lines of proofs that are not empty\n' "$answers" "$lines"
