//! runs the port's static library beside the oracle, see README.md.
mod bench;
mod blocks;
mod busy;
mod bytes;
mod codec;
mod compare;
mod damage;
mod figures;
mod lent;
mod port;
mod question;
mod record;
mod rich;
mod state;

use oracle::gen::PROFILES;
use std::process::ExitCode;

const USAGE: &str = "usage: driver compare [--seed S] [--count N] [--profile P] [--calls NAME,..] [--text] | driver list | driver blocks DIR N | driver bench [--rounds N] | driver record DIR [--seed S] [--count N] [--max BYTES]";

fn named(args: &[String], name: &str) -> Option<String> { args.iter().position(|a| a == name).and_then(|i| args.get(i + 1).cloned()) }

fn run(args: &[String]) -> Result<bool, String> {
    match args.first().map(|s| s.as_str()) {
        Some("compare") => {
            let number = |name: &str| named(args, name).map_or(Ok(1), |v| v.parse::<u64>().map_err(|e| format!("{name}: {e}")));
            let profile = named(args, "--profile").map(|p| PROFILES.iter().position(|x| *x == p).ok_or(format!("no profile {p}"))).transpose()?;
            let chosen = named(args, "--calls").map_or(Ok(port::Chosen::all()), |list| port::Chosen::parse(&list))?;
            let task = compare::Task { profile, chosen, text: args.iter().any(|a| a == "--text") };
            oracle::quiet_panics();
            let figures = compare::compare(number("--seed")?, number("--count")?, &task);
            figures.print();
            Ok(figures.differing == 0)
        }
        Some("list") => {
            for x in port::OPERATIONS { println!("{}", x.name); }
            Ok(true)
        }
        Some("blocks") => {
            let (dir, count) = (args.get(1).ok_or(USAGE)?, args.get(2).and_then(|n| n.parse().ok()).ok_or(USAGE)?);
            blocks::blocks(dir.as_ref(), count).map_err(|e| e.to_string())?;
            Ok(true)
        }
        Some("record") => {
            let number = |name: &str, otherwise: u64| named(args, name).map_or(Ok(otherwise), |v| v.parse::<u64>().map_err(|e| format!("{name}: {e}")));
            oracle::quiet_panics();
            record::record(args.get(1).ok_or(USAGE)?.as_ref(), number("--seed", 1)?, number("--count", 60)?, number("--max", 240_000)? as usize)?;
            Ok(true)
        }
        Some("bench") => {
            let rounds = named(args, "--rounds").map_or(Ok(101), |v| v.parse::<usize>().ok().filter(|n| *n > 0).ok_or(format!("--rounds {v}")))?;
            oracle::quiet_panics();
            bench::bench(rounds)
        }
        _ => Err(USAGE.into()),
    }
}

fn main() -> ExitCode {
    match run(&std::env::args().skip(1).collect::<Vec<_>>()) {
        Ok(true) => ExitCode::SUCCESS,
        Ok(false) => ExitCode::from(1),
        Err(e) => { eprintln!("{e}"); ExitCode::from(2) }
    }
}
