#!/usr/bin/env python3
"""Weakens definitions of the law over runs one at a time, in a copy of this tree, and checks that it is then proved no more.

Each weakening leaves the law standing in words and takes something out of it: a book that seats nobody, players that are handed nothing.
Proofs that only name what was weakened are mended beside it, so that what refuses it is a fact that no longer holds. The checker has
to refuse the named crate, and its errors have to be those lemmas. Not a part of the gate: an edit there is one file.

usage: tools/weaker_laws.py [NAME ..]
"""
import os
import re
import shutil
import subprocess
import sys
import tempfile

TOP = os.path.dirname(os.path.dirname(os.path.abspath(__file__)))

BOOK = "law/specs/Book.antt"
PLAYERS = "law/specs/Players.antt"
AGREEMENT = "law/proofs/Agreement.antt"
SEATED = "law/proofs/Records.antt"
COURSES = "law/proofs/Courses.antt"
EVERY_RUN = "law/proofs/EveryRun.antt"
PLAYING = "law/proofs/RunPlayers.antt"

NEW_SEATS = "map (seat_from (b.epoch + 1)) b.arrivals ++ filter (λ t. not (is_departing b t)) b.seats"
NEXT_SEAT = """seat_next b t i = elim (in_append (map (seat_from (b.epoch + 1)) b.arrivals) (filter (λ u. not (is_departing b u)) b.seats) t i) [
  | inl j ↦ inl (in_map (seat_from (b.epoch + 1)) b.arrivals t j)
  | inr k ↦ let r = in_kept (λ u. not (is_departing b u)) b.seats t k in inr (r.0, not-true (is_departing b t) r.1)
]"""
NEXT_ENDED = """ended_next s i = elim (in_append (map (stay_to b.epoch) (filter (is_departing b) b.seats)) b.ended s i) [
    | inl j ↦ let r = in_map (stay_to b.epoch) (filter (is_departing b) b.seats) s j in left s r.0 r.1.0 r.1.1
    | inr k ↦ ended_before k
  ]"""
HAVE_ENDED = """ended = λ s i. elim (in_append (map (stay_to b.epoch) (filter (is_departing b) b.seats)) b.ended s i) [
      | inl j ↦ let r = in_map (stay_to b.epoch) (filter (is_departing b) b.seats) s j in
          rw r.1.1 (old.seats r.0 (in_kept (is_departing b) b.seats r.0 r.1.0).0)
      | inr k ↦ old.ended s k
    ];"""

STAYING_SEAT = """in_right (map (seat_from (b.epoch + 1)) b.arrivals) (filter (λ t. not (is_departing b t)) b.seats) s.0
                  (kept_in (λ t. not (is_departing b t)) b.seats s.0 s.1.0 (ap not stays))"""
STAYING_MEMBER = """in_right (map (seat_from (b.epoch + 1)) b.arrivals) (filter (λ t. not (is_departing b t)) b.seats) m.stay.seat
            (kept_in (λ t. not (is_departing b t)) b.seats m.stay.seat i (ap not d))"""

# what the proofs go on with: the definition of a card that was given, as it was
CARD_GIVEN = """pub record IsGivenCard (run_calls : List Call) (t : Seat) (bytes : List ℕ) : Type 0 where
  pub later : List Call
  pub earlier : List Call
  pub buffer : List ℕ
  pub is_call : run_calls ≡ later ++ (card t.serial buffer ∷ earlier)
  pub was_seat : Contains (site_of earlier).book.seats t
  pub was_accepted : card_verdict (site_of earlier).server t.serial buffer ≡ Ok tt
  pub was_written : bytes ≡ take 39 (buffer_after_card (site_of earlier).server t.serial buffer)

abbrev pub PlaysAt : Site"""
GIVEN_NOW = """(record {
        later = handed_out.later; earlier = handed_out.earlier; buffer = handed_out.buffer; is_call = handed_out.is_call;
        was_seat = handed_out.was_seat; was_accepted = handed_out.was_accepted; was_written = handed_out.was_written;
      })"""
STILL_SEATED = """is_seat = subst (λ (k : Book). Contains k.seats t) (sym (ap (λ v. book_after w.book (calling.card t.serial buffer) (is_err v)) c.0)) i;
        was_seat = i;"""

# name, what it leaves, the crate that refuses it, the lemmas that are false then, and the replacements: file, old, new
WEAKER = [
    (
        "nobody_is_seated",
        "the book seats nobody who arrives, so nobody is ever a member",
        "law",
        ["publish_writes"],
        [
            (BOOK, f"seats = {NEW_SEATS};", "seats = filter (λ t. not (is_departing b t)) b.seats;"),
            (
                AGREEMENT,
                NEXT_SEAT,
                "seat_next b t i = let r = in_kept (λ u. not (is_departing b u)) b.seats t i in inr (r.0, not-true (is_departing b t) r.1)",
            ),
            (SEATED, STAYING_SEAT, "kept_in (λ t. not (is_departing b t)) b.seats s.0 s.1.0 (ap not stays)"),
            (SEATED, STAYING_MEMBER, "kept_in (λ t. not (is_departing b t)) b.seats m.stay.seat i (ap not d)"),
        ],
    ),
    (
        "departed_scanners_vanish",
        "who departs has no stay in the book any more",
        "law",
        ["member_next"],
        [
            (BOOK, "ended = map (stay_to b.epoch) (filter (is_departing b) b.seats) ++ b.ended;", "ended = b.ended;"),
            (AGREEMENT, NEXT_ENDED, "ended_next s i = ended_before i"),
            ("law/proofs/CheckedProperties.antt", HAVE_ENDED, "ended = old.ended;"),
        ],
    ),
    (
        "no_course_is_handed_a_file",
        "no player can be handed a file, so whatever is said of those who were holds",
        "law",
        ["some_course"],
        [
            (
                PLAYERS,
                "(x : Edition) (work : List ℕ) → WORKING_BYTES ≤ length work →",
                "(x : Edition) (work : List ℕ) → (WORKING_BYTES ≤ length work) × (length work ≤ 511) →",
            ),
            (COURSES, "does b q r work h c", "does b q r work h.0 c"),
        ],
    ),
    (
        "asides_only_show",
        "a course has no place for a call that was refused",
        "statements",
        ["refused_course", "player"],
        [
            (PLAYERS, "IsAside a p ring = (a ≡ show) ⊎ IsTrue (is_player_refused a p ring)", "IsAside a p ring = a ≡ show"),
            (COURSES, "aside_keeps a l p ring (inl e) =", "aside_keeps a l p ring e ="),
            (COURSES, "  aside_keeps a own p ring (inr e) = laws.refused_keeps a p ring e\n", ""),
            (COURSES, "  aside_keeps a (other bytes) p ring (inr e) = ((laws.refused_keeps a p bytes e).0, refl)\n", ""),
        ],
    ),
    (
        "cards_only_of_seats",
        "a card counts as given only while its stay is still a seat",
        "statements",
        ["card_given"],
        [
            (
                PLAYERS,
                "  pub was_seat : Contains (book_of earlier).seats t\n",
                "  pub was_seat : Contains (book_of earlier).seats t\n  pub is_seat : Contains (book_of run_calls).seats t\n",
            ),
            (PLAYING, "{IsGivenCard, card_of}", "{card_of}"),
            (PLAYING, "abbrev pub PlaysAt : Site", CARD_GIVEN),
            (EVERY_RUN, "sym (p.cards_are card handed_out)", f"sym (p.cards_are card {GIVEN_NOW})"),
            (EVERY_RUN, "        was_seat = i;", f"        {STILL_SEATED}"),
            (
                EVERY_RUN,
                "use Rattle.law.specs.Book.{Seat}\n",
                "use Rattle.law.specs.Book.{Seat, Book, book_after}\nuse Rattle.std.specs.Result.{is_err}\n",
            ),
        ],
    ),
    (
        "newest_epoch_only",
        "whose keys reach a group key is said of the newest epoch alone",
        "statements",
        ["reaches", "reached_in"],
        [
            (
                "law/specs/Law.antt",
                "pub reached_by_members : (serials : List ℕ) (e : ℕ) →",
                "pub reached_by_members : (serials : List ℕ) (e : ℕ) → e ≡ (book_of calls).epoch →",
            ),
            (EVERY_RUN, "reached_by_members = λ serials e. (", "reached_by_members = λ serials e newest. ("),
        ],
    ),
]


def weaken(copy, replacements):
    """Makes the replacements; each old text has to stand in its file exactly once."""
    for file, old, new in replacements:
        path = os.path.join(copy, "crates", file)
        with open(path, encoding="utf8") as f:
            text = f.read()
        if text.count(old) != 1:
            sys.exit(f"{file} has this {text.count(old)} times, not once:\n{old}")
        with open(path, "w", encoding="utf8") as f:
            f.write(text.replace(old, new))


def refused_at(copy, crate):
    """The lemmas at which the check of the crate stops, without those that depend on them, or None if it is proved."""
    check = subprocess.run(["rt", "check"], cwd=os.path.join(copy, "crates", crate), capture_output=True, text=True)
    if check.returncode == 0:
        return None
    errors = re.findall(r"error: `([^`]+)`", check.stdout + check.stderr)
    if not errors:
        sys.exit(f"the check of {crate} stopped with no error at a lemma:\n{check.stdout[-2000:]}{check.stderr[-2000:]}")
    return errors


def main():
    names = sys.argv[1:]
    bad = 0
    for name, words, crate, lemmas, replacements in WEAKER:
        if names and name not in names:
            continue
        with tempfile.TemporaryDirectory() as parent:
            copy = os.path.join(parent, "copy")
            shutil.copytree(TOP, copy, ignore=shutil.ignore_patterns(".git", "target"))
            weaken(copy, replacements)
            found = refused_at(copy, crate)
        if found is None:
            print(f"{name}: {words}: STILL PROVED")
            bad += 1
        elif set(found) != set(lemmas):
            print(f"{name}: {words}: refused at {', '.join(found)}, and not just at {', '.join(lemmas)}")
            bad += 1
        else:
            print(f"{name}: {words}: refused at {', '.join(found)} of {crate}")
    sys.exit(1 if bad else 0)


main()
