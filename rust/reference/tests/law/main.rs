//! Document 01, and requests One, Two and Five of document 02, as tests.
//! Expected answers are written out from the text; every call is played to the
//! agent and to the look-back evaluator alike.

mod bench_cases;
mod configuration;
mod deletes;
mod forms;
mod frames;
mod full_store;
mod lists;
mod looking_back;
mod reads;
mod reasons;
mod rollback;
mod streams;
mod support;
mod writes;
