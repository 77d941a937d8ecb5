//! The sweep: the library against code written from the paper. It ends with one line, `sweep: N cases, M wrong`, and
//! with status 1 where a case is wrong.
//!
//! `sweep bench` prints times; `sweep calls JOB KERNEL COUNT` only makes calls, for a count of instructions. KERNEL is the
//! kernel of each layer for a job of frames, innermost first, such as `2,2`, and `-` for a job that takes none. `sweep errors`
//! prints how many noisy frames frame decode and lists of several lengths get wrong.
mod bench;
mod block;
mod decoding;
mod errors;
mod follow;
mod frame;
mod frames;
mod kernels;
mod layered;
mod library;
mod list;
mod listing;
mod marks;
mod paper;
mod plain;
mod plan;
mod product;
mod random;
mod recorded;
mod request;
mod scales;
mod scores;
mod side;
mod tally;
mod traps;

use std::env;
use std::process::ExitCode;
use std::thread;

use paper::Kernel;
use tally::Tally;

fn main() -> ExitCode {
    let words: Vec<String> = env::args().skip(1).collect();
    let words: Vec<&str> = words.iter().map(String::as_str).collect();
    match words[..] {
        [] => sweep(),
        ["bench"] => bench::times(),
        ["errors"] => errors::count(),
        ["calls", job, kernel, count] => bench::calls(job, kernel, count),
        _ => {
            eprintln!("usage: sweep [bench | errors | calls JOB KERNEL COUNT]");
            ExitCode::from(2)
        }
    }
}

/// Two parts that take about the same time run side by side, each with its own count; what they print stays in order.
fn sweep() -> ExitCode {
    let all: Vec<Kernel> = (0..3).map(Kernel::new).collect();
    let (mut tally, rest) = thread::scope(|scope| {
        let rest = scope.spawn(|| decoding_and_marks(&all));
        (kernels_and_undoing(&all), rest.join().unwrap())
    });
    tally.add(rest);
    recorded::report(&mut tally);
    if tally.end() {
        ExitCode::SUCCESS
    } else {
        ExitCode::FAILURE
    }
}

fn kernels_and_undoing(all: &[Kernel]) -> Tally {
    let mut tally = Tally::default();
    kernels::sweep(&mut tally, all);
    follow::sweep(&mut tally, all);
    side::sweep(&mut tally, all);
    frames::sweep(&mut tally, all);
    decoding::sweep_three(&mut tally, all, 1);
    tally
}

fn decoding_and_marks(all: &[Kernel]) -> Tally {
    let mut tally = Tally::default();
    decoding::sweep(&mut tally, all);
    decoding::sweep_three(&mut tally, all, 0);
    listing::sweep(&mut tally, all);
    plain::sweep(&mut tally, all);
    marks::sweep(&mut tally);
    scales::sweep(&mut tally);
    tally
}
