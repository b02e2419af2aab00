//! The groups of inputs, by purpose: correctness, limits and damage.

mod absent_builds;
mod absent_ports;
mod absent_trees;
mod acl_cases;
mod acl_files;
mod acl_writers;
mod actions;
mod build_cases;
mod build_drawn;
mod build_limits;
mod build_rooms;
mod correctness;
mod damage;
mod drawn_damage;
mod file_correctness;
mod file_limits;
mod file_rooms;
mod limits;
mod miss_fields;
mod miss_numbers;
mod order;
mod part_damage;
mod part_files;
mod part_order;
mod part_others;
mod program_absent;
mod program_acl;
mod program_drawn;
mod program_files;
mod program_input;
mod rooms;
mod scans;
mod stop_rooms;
mod stop_steps;
mod text_cases;
mod text_damage;
mod text_drawn;
mod tree_agreement;
mod tree_cases;
mod tree_chains;
mod tree_correctness;
mod tree_damage;
mod tree_drawn;
mod tree_limits;
mod tree_order;
mod tree_words;
mod twin_orders;
mod twins;
mod why_files;
mod why_input;
mod why_words;

use crate::bench::{Bench, Run};
use crate::trials::Trials;

/// Compares every group in turn: lists, then trees, then the compiler, then the compiler that stops, then files, then
/// twins, which all of them judge, then actions and the files that hold them, then packets without ports, then why a
/// rule missed.
pub fn run(bench: &mut Bench) -> Run {
    correctness::run(bench)?;
    limits::run(bench)?;
    rooms::run(bench)?;
    damage::run(bench)?;
    order::run(bench)?;
    drawn_damage::run(bench)?;
    scans::run(bench)?;
    tree_correctness::run(bench)?;
    tree_agreement::run(bench)?;
    tree_chains::run(bench)?;
    tree_limits::run(bench)?;
    tree_damage::run(bench)?;
    tree_cases::run(bench)?;
    tree_order::run(bench)?;
    tree_drawn::run(bench)?;
    tree_words::run(bench)?;
    build_cases::run(bench)?;
    build_drawn::run(bench)?;
    build_limits::run(bench)?;
    build_rooms::run(bench)?;
    stop_steps::run(bench)?;
    stop_rooms::run(bench)?;
    part_others::run(bench)?;
    part_damage::run(bench)?;
    part_order::run(bench)?;
    part_files::run(bench)?;
    file_correctness::run(bench)?;
    file_limits::run(bench)?;
    file_rooms::run(bench)?;
    text_damage::run(bench)?;
    text_cases::run(bench)?;
    text_drawn::run(bench)?;
    twins::run(bench)?;
    twin_orders::run(bench)?;
    actions::run(bench)?;
    acl_writers::run(bench)?;
    acl_files::run(bench)?;
    acl_cases::run(bench)?;
    absent_ports::run(bench)?;
    absent_trees::run(bench)?;
    absent_builds::run(bench)?;
    miss_fields::run(bench)?;
    miss_numbers::run(bench)
}

/// Compares every group of the program's runs in turn.
pub fn run_program(trials: &mut Trials) -> Run {
    program_files::run(trials)?;
    program_input::run(trials)?;
    program_drawn::run(trials)?;
    program_acl::run(trials)?;
    program_absent::run(trials)
}

/// Compares every group of the runs of `why` in turn.
pub fn run_why(trials: &mut Trials) -> Run {
    why_input::run(trials)?;
    why_words::run(trials)?;
    why_files::run(trials)
}
