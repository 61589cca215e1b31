//! The archive beside the outside model.
//!
//! Every difference fails the test with the case's line, in the form of the model's cases, and what the archive gave for it. The seed and
//! the count of cases are printed; YOHRUNDEL_SEED and YOHRUNDEL_CASES set them.

mod answers;
mod bank_cases;
mod byte_cases;
mod calls;
mod case;
mod clause_names;
mod clauses;
mod culprits;
mod errors;
mod inputs;
mod lent;
mod methods;
mod names;
mod play_cases;
mod probes;
mod reaches;
mod reads;
mod requests;
mod row_lists;
mod row_promises;
mod rows;
mod rules;
mod scripts;
mod settings;
mod sign;
mod smallest;
mod tries;
mod updates;
mod written;
