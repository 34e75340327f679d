//! Times two programs on a list, one after the other in turn: how long each takes from its start to its end, with the
//! list as a file on standard input and the text going nowhere.

use model::command::{done, number};
use std::ffi::OsString;
use std::fs::File;
use std::io;
use std::process::{Command, ExitCode, Stdio};
use std::time::{Duration, Instant};

struct Task {
    programs: [OsString; 2],
    rounds: usize,
    lists: Vec<OsString>,
}

fn task(words: &mut dyn Iterator<Item = OsString>) -> Option<Task> {
    let programs = [words.next()?, words.next()?];
    let rounds = number(words.next()?)?;
    let lists: Vec<OsString> = words.collect();
    (rounds > 0 && !lists.is_empty()).then_some(Task { programs, rounds, lists })
}

fn once(program: &OsString, list: &OsString) -> io::Result<Duration> {
    let mut command = Command::new(program);
    command.stdin(File::open(list)?).stdout(Stdio::null());
    let start = Instant::now();
    let status = command.status()?;
    let taken = start.elapsed();
    if status.success() {
        Ok(taken)
    } else {
        Err(io::Error::other(format!("{program:?} ended with {status}")))
    }
}

fn microseconds(time: Duration) -> f64 {
    time.as_secs_f64() * 1e6
}

/// The least and the middle of the times, in microseconds.
fn least_and_middle(times: &mut [Duration]) -> (f64, f64) {
    times.sort();
    (microseconds(times[0]), microseconds(times[times.len() / 2]))
}

fn run(task: &Task) -> io::Result<bool> {
    println!("least and middle of {} runs each, in us", task.rounds);
    for list in &task.lists {
        let mut times = [Vec::new(), Vec::new()];
        for _ in 0..task.rounds {
            for (program, taken) in task.programs.iter().zip(&mut times) {
                taken.push(once(program, list)?);
            }
        }
        let [(least, middle), (other_least, other_middle)] = times.each_mut().map(|taken| least_and_middle(taken));
        let times = format!("{least:8.0} {middle:8.0}   {other_least:8.0} {other_middle:8.0}");
        let ratios = format!("{:.2} {:.2}", least / other_least, middle / other_middle);
        println!("{:<40} {times}   ratio {ratios}", list.to_string_lossy());
    }
    Ok(true)
}

fn main() -> ExitCode {
    done("time-lists", "PROGRAM OTHER-PROGRAM ROUNDS LIST...", task, run)
}
