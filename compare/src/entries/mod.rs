//! The entries of the library, and what is tried of several of them by another
//! method.

use crate::harness::Entry;

mod both_tables;
mod build;
mod build_by_text;
mod build_rejecting;
mod build_trimmed;
mod check;
mod choices_by_plans;
mod follow;
mod judge;
mod judge_choices;
mod judge_sheet;
mod judge_table;
mod live;
mod mixed_loop;
mod read_hoa;
mod runs;
mod same_rules;
mod same_words;
mod stricter;
mod stricter_by_words;
mod tidy;
mod tidy_word;
mod translate;
mod write;
mod write_hoa;
mod write_named;

pub fn all() -> Vec<Entry> {
    vec![
        check::ENTRY,
        write::ENTRY,
        write_named::ENTRY,
        same_rules::ENTRY,
        same_words::ENTRY,
        judge::ENTRY,
        build::ENTRY,
        judge_table::ENTRY,
        tidy::ENTRY,
        mixed_loop::ENTRY,
        tidy_word::ENTRY,
        judge_choices::ENTRY,
        judge_sheet::ENTRY,
        translate::ENTRY,
        build_trimmed::ENTRY,
        build_rejecting::ENTRY,
        write_hoa::ENTRY,
        read_hoa::ENTRY,
        live::ENTRY,
        follow::ENTRY,
        stricter::ENTRY,
        build_by_text::ENTRY,
        choices_by_plans::ENTRY,
        runs::ENTRY,
        stricter_by_words::ENTRY,
        both_tables::ENTRY,
    ]
}
