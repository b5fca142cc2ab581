//! Differential fuzzing of the layer: random texts, settings and calls have the same values and the same errors as in the verified code.
//!
//! With the environment variable `ROUNDS=n` each test runs n times as many rounds.

mod calls;
mod guards;
mod kept;
mod lexing;
mod plays;
mod readings;
mod settings;
mod sides;
mod texts;
mod values;
mod words;
