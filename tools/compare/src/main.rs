//! Compares the C functions of our static library with the functions of libm, and measures both.

mod compare;
mod speed;
mod subject;

use std::process::ExitCode;
use subject::Subject;

const USAGE: &str = "usage: compare|speed [--threads N] [FUNCTION...]
    compare    our answers against libm's, by bit patterns
    speed      nanoseconds for each call, ours and libm's
    --threads  for compare; 2 when left out
    FUNCTION   all when left out";

struct Request {
    speed: bool,
    threads: usize,
    subjects: Vec<Box<dyn Subject>>,
}

fn request(mut words: impl Iterator<Item = String>) -> Result<Request, String> {
    let speed = match words.next().as_deref() {
        Some("compare") => false,
        Some("speed") => true,
        _ => return Err(USAGE.to_string()),
    };
    let mut threads = 2;
    let mut names = Vec::new();
    while let Some(word) = words.next() {
        if word == "--threads" {
            threads = match words.next().and_then(|n| n.parse().ok()) {
                Some(n) if n > 0 => n,
                _ => return Err("--threads takes a number from 1 on".to_string()),
            };
        } else if word.starts_with('-') {
            return Err(USAGE.to_string());
        } else {
            names.push(word);
        }
    }

    let mut all = subject::table();
    if names.is_empty() {
        return Ok(Request {
            speed,
            threads,
            subjects: all,
        });
    }
    let known: Vec<_> = all.iter().map(|s| s.name()).collect();
    let mut subjects = Vec::new();
    for name in names {
        match all.iter().position(|s| s.name() == name) {
            Some(at) => subjects.push(all.remove(at)),
            None if known.contains(&name.as_str()) => return Err(format!("{name} is named twice")),
            None => {
                return Err(format!(
                    "no function {name}; there are: {}",
                    known.join(" ")
                ));
            }
        }
    }
    Ok(Request {
        speed,
        threads,
        subjects,
    })
}

fn main() -> ExitCode {
    let request = match request(std::env::args().skip(1)) {
        Ok(request) => request,
        Err(why) => {
            eprintln!("{why}");
            return ExitCode::from(2);
        }
    };
    let mut same = true;
    for subject in &request.subjects {
        same &= if request.speed {
            subject.speed()
        } else {
            subject.compare(request.threads)
        };
    }
    if same {
        ExitCode::SUCCESS
    } else {
        ExitCode::FAILURE
    }
}
