#!/usr/bin/env bash
# Nothing stands in the crates that nothing uses: definitions, lemmas, imports, functions, public items, laws; and no function
# of the tests. What counts as used is said in `unused.py`. Each rule is tried first on three crates that are made up here, where
# it finds what is unused and nothing else.
# Last line: 'N passed, M failed'.
set -u
here=$(cd "$(dirname "${BASH_SOURCE[0]}")/.." && pwd)
cd "$here" || exit 1
passed=0
failed=0
work=$(mktemp -d) || exit 1
trap 'rm -rf "$work"' EXIT

judge() {
    if [ "$1" = 0 ]; then
        passed=$((passed + 1))
    else
        echo "unused: $2"
        failed=$((failed + 1))
    fi
}

low=$work/crates/low
high=$work/crates/high
tried=$work/crates/tried
mkdir -p "$low/src/step" "$low/specs" "$low/proofs/step/walk" "$high/src" "$tried/src" "$tried/tests"
cat > "$low/src/lib.rt" << 'END'
//! A library.
pub use step::walk::{Idle, Way, walk};
END
cat > "$low/src/laws.rt" << 'END'
pub fn told_law() {}
pub fn silent_law() {}
END
cat > "$low/src/step/walk.rt" << 'END'
ghost use Rattle.low.specs.Steps.{leads, stays};
pub struct Way;
pub struct Idle;
pub fn walk() -> Way
    ensures { leads result }
{
    helped()
}
// The function idle_helper is named here alone.
fn helped() -> Way {
    Way
}
fn idle_helper() -> Way {
    Way
}
END
cat > "$low/specs/Steps.antt" << 'END'
-- Where a step leads.
use Rattle.std.specs.Prelude.{Bool, true, false}
abbrev pub leads : Bool → Bool
leads b = near b

abbrev near : Bool → Bool
near b = true

abbrev pub stays : Bool → Bool
stays b = b

abbrev pub idle_word : Bool → Bool
idle_word b = near b
END
cat > "$low/proofs/step/walk/Answers.antt" << 'END'
use Rattle.low.proofs.Lemmas.{asked}
use Rattle.low.proofs.step.walk.Goals as goal

pub returns : goal.returns
returns c = asked c
END
cat > "$low/proofs/Lemmas.antt" << 'END'
use Rattle.std.proofs.Common.{◌≡◌, ◌+◌, refl}
module _ (A : Type 0) where
  mutual
    pub asked : (x : A) → x ≡ x
    asked x = inner x

    inner : (x : A) → x ≡ x
    inner x = refl

  pub idle_lemma : (x : A) → x ≡ x
  idle_lemma x = asked x
END
cat > "$high/src/main.rt" << 'END'
use low::walk;
fn main() {
    walk();
}
END
cat > "$tried/src/lib.rt" << 'END'
//! What the tests share.
pub fn is_shared() {}
pub fn idle_shared() {}
END
cat > "$tried/tests/ways.rs" << 'END'
fn is_way() {}
fn idle_assert() {}
#[test]
fn one_way() {
    is_way();
    is_shared();
}
END
echo 'The law `told_law` holds.' > "$work/TOLD.md"

found=$(python3 checks/unused.py "$work/crates" "$work/TOLD.md" | sed -e "s|$work/crates/||" -e "s|$work/||")
wanted='low/proofs/Lemmas.antt: ◌+◌: the file imports it and names it nowhere
low/proofs/Lemmas.antt:10: idle_lemma: nothing uses this definition
low/specs/Steps.antt: false: the file imports it and names it nowhere
low/specs/Steps.antt:12: idle_word: nothing uses this definition
low/src/laws.rt: silent_law: no document names this law
low/src/lib.rt: Idle: no other crate, no public call and no document names this item
low/src/step/walk.rt: idle_helper: nothing calls this function
low/src/step/walk.rt: stays: the file imports it and names it nowhere
tried/src/lib.rt: idle_shared: nothing calls this function
tried/tests/ways.rs: idle_assert: nothing calls this function'
judge "$([ "$(LC_ALL=C sort <<< "$found")" = "$(LC_ALL=C sort <<< "$wanted")" ]; echo $?)" "the rules find in what is made up: $found"

found=$(python3 checks/unused.py crates README.md CONTRIBUTING.md docs/*.md)
judge $? 'the search did not end'
if [ -z "$found" ]; then
    passed=$((passed + 1))
else
    echo "$found"
    failed=$((failed + $(wc -l <<< "$found")))
fi
# so many definitions are there at least, or the search looked at another folder
judge "$([ "$(cat crates/*/specs/*.antt | wc -l)" -gt 1000 ]; echo $?)" 'hardly any definition is there to look at'
echo "$passed passed, $failed failed"
[ "$failed" = 0 ]
