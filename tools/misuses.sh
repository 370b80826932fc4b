#!/bin/sh
# Checks that six misuses are still turned down: a waiting player asked for the group key, a wiped player given a file, a seated player
# made of the numbers of a waiting one, a stored player restored twice, a player cloned, and a key wrap that seals without the checks of
# the interface. Each is a small crate in a copy of this tree; the checker has to refuse it with the message that docs/player.md and
# docs/wraps.md show. Not a part of the gate, since there an edit that does not compile counts as a bad edit.
#
# usage: tools/misuses.sh
set -eu

top=$(cd "$(dirname "$0")/.." && pwd)
copy=$(mktemp -d)
trap 'rm -rf "$copy"' EXIT
(cd "$top" && tar cf - --exclude .git --exclude target .) | (cd "$copy" && tar xf -)
printf '\n# a misuse\nmisuse: wrap wrap_rules kw player\n' >>"$copy/crates.txt"
mkdir -p "$copy/crates/misuse/src"

# turned_down WHAT MESSAGE: the crate on standard input is refused with that message
turned_down() {
    cat >"$copy/crates/misuse/src/lib.rt"
    if (cd "$copy/crates/misuse" && rt check) >"$copy/told" 2>&1; then
        echo "$1: was accepted"
        exit 1
    fi
    if ! grep -F "$2" "$copy/told"; then
        echo "$1: was refused with something else:"
        tail -n 5 "$copy/told"
        exit 1
    fi
    echo "$1: turned down"
}

turned_down "a waiting player is asked for the group key" \
    'no method named `show` found for type `Waiting`' <<'CRATE'
//! A waiting player is asked for the group key.
#![tactic(auto)]

use player::Waiting;

pub fn group_key(player: Waiting, ring: &[u8]) -> Option<[u8; 32]> {
    player.show(ring).ok()
}
CRATE

turned_down "a wiped player is given a file" \
    'no method named `read` found for type `Wiped`' <<'CRATE'
//! A wiped player is given a file.
#![tactic(auto)]

use player::{Seated, Wiped};
use wrap::Wrap;

pub fn read_on<W: Wrap>(
    player: Wiped,
    wrap: &W,
    file: &[u8],
    ring: &mut [u8],
    work: &mut [u8],
) -> Option<Seated> {
    player.read(wrap, file, ring, work).ok()
}
CRATE

turned_down "a seated player is made of the numbers of a waiting one" \
    'field `serial` of struct `Waiting` is private' <<'CRATE'
//! A seated player is made of the numbers of a waiting one.
#![tactic(auto)]

use player::{Seated, Waiting};

pub fn seated_early(player: &Waiting) -> Seated {
    Seated {
        serial: player.serial,
        leaf: player.leaf,
        epoch: player.epoch,
    }
}
CRATE

turned_down "a stored player is restored twice" \
    'use of moved value: `stored`' <<'CRATE'
//! A stored player is restored twice.
#![tactic(auto)]

use player::{AnyPlayer, Stored};

pub fn two_players(stored: Stored) -> (Option<AnyPlayer>, Option<AnyPlayer>) {
    (AnyPlayer::restore(stored), AnyPlayer::restore(stored))
}
CRATE

turned_down "a player is cloned" \
    '`Seated` is not `Clone`' <<'CRATE'
//! A player is cloned.
#![tactic(auto)]

use player::Seated;

pub fn second(player: &Seated) -> Seated {
    player.clone()
}
CRATE

turned_down "a key wrap seals without the checks of the interface" \
    'cannot override `seal`, which is `final` in the trait' <<'CRATE'
//! A key wrap seals without the checks of the interface.
#![tactic(auto)]

ghost use Rattle.wrap_rules.specs.Meanings.{rfc_3394};
ghost use Rattle.wrap_rules.proofs.Lawful.{rfc_3394_lawful};

use kw::KeyWrap;
use wrap::{Wrap, WrapFault};

pub struct Unchecked;

impl Wrap for Unchecked {
    ghost meaning = { rfc_3394 };

    ghost lawful = { rfc_3394_lawful };

    fn kind(&self) -> u8 {
        KeyWrap.kind()
    }

    fn sealed_len(&self) -> usize {
        KeyWrap.sealed_len()
    }

    fn seal_to(
        &self,
        key: [u8; 32],
        name: [u8; 10],
        content: [u8; 32],
        out: &mut [u8],
        work: &mut [u8],
    ) {
        KeyWrap.seal_to(key, name, content, out, work);
    }

    fn open_from(
        &self,
        key: [u8; 32],
        name: [u8; 10],
        bytes: &[u8],
        work: &mut [u8],
    ) -> Option<[u8; 32]> {
        KeyWrap.open_from(key, name, bytes, work)
    }

    fn seal(
        &self,
        key: [u8; 32],
        name: [u8; 10],
        content: [u8; 32],
        out: &mut [u8],
        work: &mut [u8],
    ) -> Result<(), WrapFault> {
        self.seal_to(key, name, content, out, work);
        Ok(())
    }
}
CRATE
