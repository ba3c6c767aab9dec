//! A tariff book under the cap of draft condition 28AD.
//!
//! Charges are counted in mills (a thousandth of a penny), consumption in kWh.
//! The book holds a cost sheet with its period, or none, and 32 places for tariffs.
//! A tariff is open only while it stays within the Relevant Maximum Charge in every
//! cell (offered region with offered payment method) and for every division of
//! consumption between the months, or while it is under a direction and households are repaid
//! what they were charged above it. Each call is made by a desk with its own regions; the calls
//! of a desk with all fourteen have names of their own.

pub mod bars;
mod book;
mod calendar;
pub mod conversation;
pub mod counts;
pub mod desk;
pub mod fuzz;
pub mod program;
pub mod random;
mod regions;
pub mod runs;
pub mod script;
mod sheet;
pub mod side_by_side;
pub mod tally;
mod tariff;

pub use book::{
    Account, Book, Maximum, NotOpened, NotRun, Quote, Refusal, State, PLACES, RUN_LIMIT,
};
pub use calendar::period_days;
pub use regions::DeskRegions;
pub use sheet::{
    common_sums, field_range, field_value, operating_costs, Breach, SheetError, COMMON_FIELDS,
    FIELDS, METHODS, PEAK_SHARE, REGIONS, SMNCC,
};
pub use tariff::{Tariff, MONTH_LIMIT, RATE_LIMIT, RECORD, REGIONAL, STANDING_LIMIT, WHOLE};
