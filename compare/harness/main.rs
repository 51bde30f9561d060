// Makes the same calls on the original grid crate and on ours, and stops at the first difference with status 1.
// Usage: harness PROGRAM FOLDER. PROGRAM is the built scoresheet; lists for it are written into FOLDER. The host library is
// linked in. compare/compare builds all of it and runs it.
mod cells;
mod difference;
mod guarded;
mod host;
mod host_cases;
mod list;
mod list_cases;
mod original;
mod pair;
mod program;
mod random;
mod rules;
mod tally;

use cells::{Kind, Passage, Penalty};
use difference::Difference;
use list::List;
use random::Random;
use std::path::{Path, PathBuf};
use std::process::{exit, ExitCode};
use std::thread;
use tally::Tally;

fn host_calls() -> Result<Tally, Difference> {
    let mut all = Tally::default();
    let mut random = Random::new(1);
    all.print("host calls, every grid up to 5 x 5", host_cases::small(&mut random, 5)?);
    all.print("host calls at the limits", host_cases::limits(&mut random)?);
    all.print("host calls in lists, small grids", host_cases::lists(&mut random, 3000, 100, 8)?);
    all.print("host calls in lists, up to 256 x 256", host_cases::lists(&mut random, 100, 60, 256)?);
    Ok(all)
}

fn list_calls<T: Kind>(program: &Path, folder: &Path, seed: u64) -> Result<Tally, Difference> {
    let file = folder.join(format!("{}.list", T::NAME));
    let mut all = Tally::default();
    let mut random = Random::new(seed);
    // runs the program on each list
    let mut play = |what: &str, lists: &mut dyn Iterator<Item = List<T>>| -> Result<(), Difference> {
        let mut part = Tally::default();
        for list in lists {
            part.add(&program::compare(program, &file, &list)?);
        }
        all.print(&format!("calls of lists of {}, {what}", T::NAME), part);
        Ok(())
    };
    play("every grid up to 4 x 4", &mut list_cases::small(&mut random, 4).into_iter())?;
    play("at the limits", &mut list_cases::limits(&mut random).into_iter())?;
    play("small grids", &mut (0..4).map(|_| list_cases::drawn(&mut random, 20, 300, 8)))?;
    play("up to 256 x 256", &mut (0..6).map(|_| list_cases::drawn(&mut random, 4, 120, 256)))?;
    Ok(all)
}

// The part's calls; at the first difference all ends.
fn agreed(part: Result<Tally, Difference>) -> Tally {
    part.unwrap_or_else(|difference| {
        println!("{difference}");
        exit(1)
    })
}

fn main() -> ExitCode {
    // a panic of the original is an answer, and is not told
    std::panic::set_hook(Box::new(|_| ()));
    let args: Vec<PathBuf> = std::env::args_os().skip(1).map(PathBuf::from).collect();
    let [program, folder] = args.as_slice() else {
        eprintln!("usage: harness PROGRAM FOLDER");
        return ExitCode::from(2);
    };
    let parts = thread::scope(|s| {
        let hosts = s.spawn(|| agreed(host_calls()));
        let passages = s.spawn(|| agreed(list_calls::<Passage>(program, folder, 2)));
        let penalties = s.spawn(|| agreed(list_calls::<Penalty>(program, folder, 3)));
        [hosts, passages, penalties].map(|part| part.join())
    });
    let mut all = Tally::default();
    for part in parts {
        match part {
            Ok(tally) => all.add(&tally),
            Err(_) => {
                println!("the harness stopped: it could not write a list or run the program");
                return ExitCode::FAILURE;
            }
        }
    }
    println!("in all: {all}; none differs");
    ExitCode::SUCCESS
}
