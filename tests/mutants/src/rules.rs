//! The rules by which a part of a source is changed, each with its name.

use crate::order;
use crate::site::{Edit, Site};
use crate::tokens;

type Rule = (&'static str, fn(&Site) -> Vec<Edit>);

pub const RULES: [Rule; 10] = [
    ("comparison", tokens::comparisons),
    ("arithmetic", tokens::arithmetic),
    ("logic", tokens::logic),
    ("constant", tokens::constants),
    ("field", tokens::fields),
    ("name", tokens::names),
    ("operands", order::operands),
    ("order", order::statements),
    ("guard dropped", order::guards_dropped),
    ("guards exchanged", order::guards_exchanged),
];
