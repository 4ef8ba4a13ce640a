//! Scripts to try: flash images made to order or at random, damage, commands, cuts, errors.

pub mod arguments;
pub mod damage;
pub mod errors;
pub mod flash;
pub mod history;
pub mod layout;
pub mod random;
pub mod scenario;
pub mod script;
pub mod tally;
