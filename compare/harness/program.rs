// Runs the built program on a list, and compares what it prints with what the original says.
use crate::difference::Difference;
use crate::list::List;
use crate::rules::ACCEPTED;
use crate::tally::Tally;
use std::path::Path;
use std::process::Command;

// Words of a difference beyond so many letters are left out.
const LETTERS: usize = 100;

// The list is written into that file. Gives the calls compared.
pub fn compare<T>(program: &Path, file: &Path, list: &List<T>) -> Result<Tally, Difference> {
    std::fs::write(file, &list.text).expect("the list can be written");
    let out = Command::new(program).arg(file).output().expect("the program runs");
    let text = String::from_utf8_lossy(&out.stdout);
    let mut printed = text.lines();
    for (wanted, call) in &list.answers {
        let got = printed.next().unwrap_or("no more lines");
        if got != wanted {
            return Err(difference(list, *call, wanted, got));
        }
    }
    let last = list.calls.len() - 1;
    if let Some(more) = printed.next() {
        return Err(difference(list, last, "the end", more));
    }
    if out.status.code() != Some(0) {
        return Err(difference(list, last, "status 0", &out.status.to_string()));
    }
    Ok(tally(list))
}

// The answers by their numbers; the rows of a show are no answers of their own.
fn tally<T>(list: &List<T>) -> Tally {
    let mut tally = Tally::default();
    for (answer, _) in list.answers.iter().filter(|(answer, _)| !answer.starts_with("row")) {
        let number = answer.strip_prefix("refused ").and_then(|rest| rest.split(' ').next()?.parse().ok());
        tally.count(number.unwrap_or(ACCEPTED));
    }
    tally
}

fn difference<T>(list: &List<T>, call: usize, wanted: &str, got: &str) -> Difference {
    let made = &list.calls[call];
    let place = wanted.split(' ').zip(got.split(' ')).position(|(w, g)| w != g);
    let place = place.unwrap_or(wanted.split(' ').count().min(got.split(' ').count()));
    Difference {
        shape: made.shape.clone(),
        call: format!("{} (line {} of a list)", from(&made.call, 0), call + 1),
        index: if made.index.is_empty() { "none".into() } else { made.index.clone() },
        expected: from(wanted, place),
        got: from(got, place),
    }
}

// The line, or of a long one what stands at the word of that number and after it.
fn from(line: &str, place: usize) -> String {
    if line.len() <= LETTERS {
        return line.into();
    }
    let rest: Vec<&str> = line.split(' ').skip(place).collect();
    let said: String = rest.join(" ").chars().take(LETTERS).collect();
    match place {
        0 => format!("{said} .."),
        _ => format!("from word {place} on: {said} .."),
    }
}
