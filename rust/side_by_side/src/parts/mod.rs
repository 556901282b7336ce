//! The parts of the comparison.

mod bounds;
mod broken;
mod choice;
mod compare;
mod differences;
mod library_fit;
mod library_rescue;
mod library_segments;
mod library_stream;
mod library_table;
mod list_program;
mod macaque_v;
mod numbers;
mod parameters;
mod pmc_mean;
mod segments;
mod swing;
mod worked;

use crate::context::Part;

/// Every part, in the order in which they run.
pub const ALL: &[Part] = &[
    Part::new("widen", numbers::widen),
    Part::new("narrow", numbers::narrow),
    Part::new("within", bounds::within),
    Part::new("deviation", bounds::deviation),
    Part::new("PMC-Mean", pmc_mean::pmc_mean),
    Part::new("Swing", swing::swing),
    Part::new("Swing's lines", swing::lines),
    Part::new("choice", choice::choice),
    Part::new("choice at the edge", choice::edges),
    Part::new("MacaqueV", macaque_v::streams),
    Part::new("MacaqueV damaged", macaque_v::damaged),
    Part::new("MacaqueV resumed", macaque_v::resumed),
    Part::new("MacaqueV's greatest s", macaque_v::greatest),
    Part::new("library: short runs", library_fit::short_runs),
    Part::new("library: runs", library_fit::runs),
    Part::new("library: lines", library_fit::lines),
    Part::new("library: costs", library_fit::costs),
    Part::new("library: choice at the edge", library_fit::edges),
    Part::new("library: fitted states", library_fit::states),
    Part::new("library: causes of the fit", library_fit::causes),
    Part::new("library: marked cases", library_stream::marked),
    Part::new("library: worked examples", worked::examples),
    Part::new("library: short lists", library_stream::short_lists),
    Part::new("library: lists", library_stream::lists),
    Part::new("library: resumed", library_stream::resumed),
    Part::new("library: older streams", library_stream::older),
    Part::new("library: damaged", library_stream::damaged),
    Part::new("library: repeats", library_stream::repeats),
    Part::new("library: states", library_stream::states),
    Part::new("library: sums", library_stream::sums),
    Part::new("library: how large", library_stream::large),
    Part::new("library: reader", library_stream::reading),
    Part::new("library: causes", library_stream::causes),
    Part::new(
        "library: segments' parameter bytes",
        library_segments::parameter_bytes,
    ),
    Part::new("library: segments written", library_segments::written),
    Part::new("library: segments damaged", library_segments::damaged),
    Part::new("library: segments' causes", library_segments::causes),
    Part::new("library: segments of a run", library_segments::paths),
    Part::new("library: broken streams", broken::broken),
    Part::new("library: tables written", library_table::written),
    Part::new("library: tables resumed", library_table::resumed),
    Part::new("library: tables' ranges", library_table::ranges),
    Part::new("library: tables of others", library_table::others),
    Part::new("library: tables of damaged streams", library_table::damaged),
    Part::new("library: tables' words", library_table::words),
    Part::new("library: tables' causes", library_table::causes),
    Part::new("library: rescue", library_rescue::rescue),
    Part::new("parameter bytes", parameters::parameters),
    Part::new("segments", segments::segments),
    Part::new("list", list_program::list_program),
    Part::new("compare", compare::compare),
    Part::new("differences", differences::differences),
    Part::new("differences: refused segments", differences::refused),
    Part::new("differences: segments stored before", differences::before),
];

/// The long one: all 2^32 patterns.
pub const EVERY_F32: Part = Part::new("widen every f32", numbers::widen_every_f32);
