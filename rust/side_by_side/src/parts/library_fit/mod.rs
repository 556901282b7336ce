//! PMC-Mean, Swing and the choice as compiled from the proved crates, called through their C face, beside
//! the paper's program and, where it is at hand, the Rust's text.

mod both;
mod causes;
mod costs;
mod edges;
mod kinds;
mod lines;
mod metadata;
mod run;
mod runs;
mod safe;
mod short;
mod states;

pub use both::choose;
pub use causes::causes;
pub use costs::costs;
pub use edges::edges;
pub use lines::lines;
pub use run::Run;
pub use runs::runs;
pub use short::short_runs;
pub use states::states;
