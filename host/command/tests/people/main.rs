//! The command as people run it: each of its words on good, empty, damaged, huge and unreadable files.

mod audit;
mod browser;
mod cuttings;
mod exact;
mod explain;
mod files;
mod findings;
mod hints;
mod lesson;
mod log;
mod loops;
mod replay;
mod report;
mod room;
mod salvage;
mod settings;
mod sound;
mod students;
mod tools;
mod week;
mod words;
