//! Document 01, with what document 02 changes, in Rust, in the paper's order and words. A call is a rule broken, or a list of stores that is then made up to n, or
//! to a store that fails.

pub mod calls;
pub mod entry;
pub mod image;
pub mod layout;
pub mod modes;
pub mod moves;
pub mod profiles;
pub mod records;
pub mod region;
pub mod request;
pub mod rules;
pub mod season;
pub mod session;
pub mod settings;
pub mod stores;
pub mod tenants;
pub mod varlist;
pub mod work;

pub use calls::{
    check, dead, format, format_stores, get, get_many, mode, mode_stores, next_name, present_mode, profile, profile_stores, set, set_stores,
    start_up, start_up_stores, width,
};
pub use moves::{from_plain, to_plain};
pub use season::season;
pub use session::{lock, phase, session_new};
pub use stores::{Made, Page, Store, Stores};
pub use varlist::varlist;
