//! What is compared, a section at a time.

mod damage;
mod deposits;
mod document;
mod forms;
mod large;
mod names;
mod pack_lists;
mod pipes;
mod properties;
mod writing;

use crate::compare::Compare;
use crate::random::Random;

type Section = (&'static str, fn(&mut Compare, &mut Random));

pub const ALL: [Section; 38] = [
    ("the documents' own cases", document::cases),
    ("the stored lookups", document::lookups),
    ("hashes", document::hashes),
    ("header keys in every order and width", forms::header_orders),
    (
        "primary keys in every order and width",
        forms::primary_orders,
    ),
    ("unknown keys of every type", forms::unknown_keys),
    ("known keys of every type, repeated too", forms::known_keys),
    (
        "keys twice, at every place and in every width",
        forms::keys_twice,
    ),
    ("nesting", forms::nesting),
    ("integers near powers of two", forms::integers),
    ("item lengths near powers of two", forms::item_lengths),
    ("items with every first byte", forms::first_bytes),
    ("value lengths near powers of two", damage::value_lengths),
    ("random packs", damage::random_packs),
    ("bytes changed", damage::changed),
    ("cut and grown", damage::cut_and_grown),
    ("packs in parts", pipes::cut_by_chance),
    ("packs in parts, cut at every place", pipes::cut_everywhere),
    ("packs in parts, bytes changed", pipes::changed),
    ("any state of a pipe", pipes::any_state),
    ("pipes near their limit", pipes::near_the_limit),
    ("pack lists", pack_lists::lists),
    ("pack lists, changed and cut", pack_lists::damaged),
    (
        "pack list keys in every order and width",
        pack_lists::orders,
    ),
    ("pack list keys of every type and twice", pack_lists::keys),
    ("pack list numbers near 64 bits", pack_lists::numbers),
    ("names", names::names),
    ("ULIDs", names::ulids),
    ("writing", writing::calls),
    ("primary parts of versions", writing::version_parts),
    ("write then read", properties::read_back),
    ("deletions and orders", properties::deletions_and_orders),
    ("packs near the deposit profile", deposits::profiles),
    ("any packs by the deposit profile", deposits::any_packs),
    ("what is written, by the deposit profile", deposits::written),
    ("bytes 28 and 29, by the deposit profile", deposits::spare),
    ("longer than the limit", large::longer_than_the_limit),
    ("cut at every byte", properties::fronts),
];
