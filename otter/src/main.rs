//! otter: a night of traces at the bench. Every verdict, order, circle, session and step comes from the proved library; otter finds files, spreads
//! the work over the cores, counts, draws and words, and judges nothing itself. docs/NIGHT.md leads through a night, docs/GUIDE.md explains the
//! answers.

mod check;
mod explain;
mod files;
mod import;
mod input;
mod judged;
mod keys;
mod meaning;
mod memory;
mod night;
mod pack;
mod paper;
mod picture;
mod records;
mod replay;
mod report;
mod show;
mod shrink;
mod spread;
mod status;
mod sum;
mod talk;

use clap::{Parser, Subcommand};
use std::process::ExitCode;

/// Check memory traces with the proved checker Wheelotter.
#[derive(Parser)]
#[command(name = "otter", version, arg_required_else_help = true, after_help = status::HELP)]
struct Words {
    #[command(subcommand)]
    command: Command,
}

#[derive(Subcommand)]
enum Command {
    Check(check::Options),
    Sum(sum::Options),
    Show(show::Options),
    Explain(explain::Options),
    Report(report::Options),
    Talk(talk::Options),
    Replay(replay::Options),
    Import(import::Options),
    Shrink(shrink::Options),
    Paper(paper::Options),
    Night(night::Options),
    Pack(pack::Pack),
    Unpack(pack::Unpack),
}

fn done(command: &Command) -> status::Done {
    match command {
        Command::Check(options) => check::check(options),
        Command::Sum(options) => sum::sum(options),
        Command::Show(options) => show::show(options),
        Command::Explain(options) => explain::explain(options),
        Command::Report(options) => report::report(options),
        Command::Talk(options) => talk::talk(options),
        Command::Replay(options) => replay::replay(options),
        Command::Import(options) => import::import(options),
        Command::Shrink(options) => shrink::shrink(options),
        Command::Paper(options) => paper::paper(options),
        Command::Night(options) => night::night(options),
        Command::Pack(options) => pack::pack(options),
        Command::Unpack(options) => pack::unpack(options),
    }
}

fn main() -> ExitCode {
    let status = done(&Words::parse().command).unwrap_or_else(|error| {
        if !status::closed(error.as_ref()) {
            eprintln!("otter: {error}");
        }
        status::UNJUDGED
    });
    ExitCode::from(status)
}
