//! The commands, in the order of the help.

mod check;
mod convert;
mod depth;
mod files;
mod game;
mod hint;
mod list;
mod mend;
mod sgf;
mod svg;
mod tag;
mod turn;
mod verdict;

use crate::args::Command;

pub const COMMANDS: &[Command] = &[
    list::COMMAND,
    verdict::COMMAND,
    game::COMMAND,
    sgf::COMMAND,
    tag::COMMAND,
    mend::COMMAND,
    convert::COMMAND,
    hint::COMMAND,
    depth::COMMAND,
    turn::COMMAND,
    svg::COMMAND,
    check::COMMAND,
];
