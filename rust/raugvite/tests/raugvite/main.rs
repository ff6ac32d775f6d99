//! The package as a caller sees it.
mod cases;
mod examples;
mod json;
mod printed;
mod refusals;
mod storage;
mod texts;
