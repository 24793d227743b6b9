//! The job of `remux` as a plain Rust program: parent streams in, one multiplex out.

mod adapter;
mod args;
mod carrier;
mod config;
mod psi;
mod remux;
mod stream;

use std::process::ExitCode;

use args::Asked;

fn main() -> ExitCode {
    let done = match args::parse(std::env::args().skip(1)) {
        Ok(Asked::Help) => {
            println!("{}", args::USAGE);
            Ok(())
        }
        Ok(Asked::Job(args)) => remux::run(&args),
        Err(fault) => Err(fault),
    };
    match done {
        Ok(()) => ExitCode::SUCCESS,
        Err(fault) => {
            eprintln!("peer: {fault}");
            ExitCode::FAILURE
        }
    }
}
