//! Tests of the whole library, one file per subject.

mod area;
mod broadcast;
mod card;
mod compare;
mod controller;
mod exchange;
mod helpers;
mod label;
mod long;
mod makers;
mod message;
mod planted;
mod programs;
mod records;
mod refusals;
mod rules;
mod samples;
mod spread;
mod text;
mod trace;
mod transfers;
mod who;
