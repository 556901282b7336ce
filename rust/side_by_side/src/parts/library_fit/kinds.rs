//! What steps over points: PMC-Mean, Swing and the builder of both, by their calls, the paper's and the
//! library's.

use crate::face::{choice, fit};
use modelardb_rattle::Fault;
use modelardb_rattle::ffi::{self, MODEL_BUILDER_WORDS, PMC_MEAN_WORDS, SWING_WORDS, Words};

type New = fn(Words, &mut [u64]) -> Fault;
type Step = fn(&mut [u64], i64, u32) -> Fault;
type Asking = fn(&[u64], usize, &mut [u32]) -> Fault;

pub struct Kind {
    pub name: &'static str,
    /// How long a state's row is.
    pub words: usize,
    /// Whether a state of PMC-Mean and one of Swing stand in it.
    pub holds: [bool; 2],
    pub new: [New; 2],
    pub step: [Step; 2],
    pub asks: &'static [Ask],
}

/// What a state can be asked, and how many words the answer has.
pub struct Ask {
    pub name: &'static str,
    pub words: usize,
    pub call: [Asking; 2],
}

/// A cost of one word, and a model of so many, which does not depend on the metadata's size.
const fn asks(
    names: [&'static str; 2],
    words: usize,
    cost: [Asking; 2],
    model: [Asking; 2],
) -> [Ask; 2] {
    let [cost_name, model_name] = names;
    [
        Ask {
            name: cost_name,
            words: 1,
            call: cost,
        },
        Ask {
            name: model_name,
            words,
            call: model,
        },
    ]
}

pub const PMC_MEAN: Kind = Kind {
    name: "PMC",
    words: PMC_MEAN_WORDS,
    holds: [true, false],
    new: [fit::pmc_mean_new, ffi::pmc_mean_new],
    step: [
        |row, _, value| fit::pmc_mean_fit_value(row, value),
        |row, _, value| ffi::pmc_mean_fit_value(row, value),
    ],
    asks: &asks(
        ["PMC cost", "PMC model"],
        1,
        [fit::pmc_mean_bytes_per_value, ffi::pmc_mean_bytes_per_value],
        [
            |row, _, out| fit::pmc_mean_model(row, out),
            |row, _, out| ffi::pmc_mean_model(row, out),
        ],
    ),
};

pub const SWING: Kind = Kind {
    name: "Swing",
    words: SWING_WORDS,
    holds: [false, true],
    new: [fit::swing_new, ffi::swing_new],
    step: [fit::swing_fit_data_point, ffi::swing_fit_data_point],
    asks: &asks(
        ["Swing cost", "Swing model"],
        2,
        [fit::swing_bytes_per_value, ffi::swing_bytes_per_value],
        [
            |row, _, out| fit::swing_model(row, out),
            |row, _, out| ffi::swing_model(row, out),
        ],
    ),
};

/// Asked for its choice, it answers in words of its own.
pub const BUILDER: Kind = Kind {
    name: "builder",
    words: MODEL_BUILDER_WORDS,
    holds: [true, true],
    new: [choice::new, ffi::model_builder_new],
    step: [
        choice::try_to_update_models,
        ffi::model_builder_try_to_update_models,
    ],
    asks: &[],
};

pub const KINDS: [Kind; 3] = [PMC_MEAN, SWING, BUILDER];

impl Kind {
    pub fn is_builder(&self) -> bool {
        self.holds == [true, true]
    }
}
