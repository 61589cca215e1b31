//! The program `cases`, run on cases whose answers the outside model gave.
//!
//! The files beside this one hold full lines, `NAME inputs | outputs`. The model's tests compare what they expect with the model.

mod forms;
mod made;
mod run;
mod stored;
