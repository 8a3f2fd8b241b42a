//! Times the archive beside the independent implementation, and the gateway step beside the C peer where that is linked, on the same inputs, and
//! prints a table. A process runs rounds in which the sides take turns; the table has medians over several processes, since where stack
//! and code happen to lie makes a whole process faster or slower.
use oyinkafubo_host::calls::{Archive, Calls};
use oyinkafubo_host::reference::Reference;
use oyinkafubo_host::samples::{self, Sample};
use std::{env, process::Command};

const PROCESSES: usize = 7;
const ROUNDS: usize = 15;
/// How long one side of a round takes at least, in microseconds.
const ROUND: i64 = 5_000;

extern "C" {
    /// The C library's: the processor time of this process, in microseconds on every POSIX system. Unlike the time of the wall it does not
    /// count other processes.
    fn clock() -> i64;
}

/// Processor time of the sample run `times` times on a side, in microseconds.
fn microseconds(side: &dyn Calls, sample: &Sample, times: usize) -> i64 {
    let start = unsafe { clock() };
    sample.repeat(side, times);
    unsafe { clock() - start }
}

/// Nanoseconds for one call, over all cases of the sample.
fn nanoseconds(side: &dyn Calls, sample: &Sample, times: usize) -> f64 {
    microseconds(side, sample, times) as f64 * 1000.0 / (times * sample.cases.len()) as f64
}

/// How often the sample has to be run for a round.
fn times_of(sample: &Sample) -> usize {
    let mut times = 1;
    while microseconds(&Archive, sample, times) < ROUND {
        times *= 2;
    }
    times
}

fn median(values: &[f64]) -> f64 {
    let mut sorted = values.to_vec();
    sorted.sort_by(f64::total_cmp);
    sorted[sorted.len() / 2]
}

/// The C peer, which has the gateway step alone; it must give the same numbers and bytes, or the times would be those of other work.
#[cfg(peer)]
fn peer_of(sample: &Sample) -> Option<&'static dyn Calls> {
    use oyinkafubo_host::case::{observe, Call};
    use oyinkafubo_host::peer::Peer;
    if sample.call != Call::Gateway {
        return None;
    }
    for case in &sample.cases {
        let (ours, theirs) = (observe(&Archive, case), observe(&Peer, case));
        let written = ours.answer[0] as usize;
        let same = ours.answer == theirs.answer && ours.out[..written] == theirs.out[..written];
        assert!(same, "the peer does other work:\n{}", case.line());
    }
    Some(&Peer)
}

#[cfg(not(peer))]
fn peer_of(_: &Sample) -> Option<&'static dyn Calls> {
    None
}

/// One process: a line for each sample, the archive's time and then each other side's, with the archive's by it; medians over the rounds.
fn measure() {
    for sample in samples::all() {
        let times = times_of(&sample);
        let mut sides: Vec<&dyn Calls> = vec![&Reference];
        sides.extend(peer_of(&sample));
        let mut archive = Vec::new();
        let mut beside = vec![Vec::new(); sides.len()];
        for _ in 0..ROUNDS {
            archive.push(nanoseconds(&Archive, &sample, times));
            for (side, taken) in sides.iter().zip(&mut beside) {
                taken.push(nanoseconds(*side, &sample, times));
            }
        }
        print!("{}", median(&archive));
        for taken in &beside {
            let ratios: Vec<f64> = archive.iter().zip(taken).map(|(ours, theirs)| ours / theirs).collect();
            print!(" {} {}", median(taken), median(&ratios));
        }
        println!();
    }
}

/// The numbers of each line that a process printed.
fn one_process() -> Vec<Vec<f64>> {
    let program = env::current_exe().expect("this program has a path");
    let output = Command::new(program).arg("once").output().expect("this program runs again");
    assert!(output.status.success(), "{}", String::from_utf8_lossy(&output.stderr));
    let text = String::from_utf8(output.stdout).expect("numbers");
    text.lines().map(|line| line.split(' ').map(|word| word.parse().expect("a number")).collect()).collect()
}

/// A side's time and the archive's by it: medians over the processes, and the smallest and the largest.
fn cells(times: &[f64], ratios: &[f64]) -> String {
    let least = ratios.iter().copied().fold(f64::INFINITY, f64::min);
    let most = ratios.iter().copied().fold(0.0, f64::max);
    format!("{:.0} | {:.2} | {least:.2}..{most:.2}", median(times), median(ratios))
}

fn main() {
    if env::args().any(|word| word == "once") {
        return measure();
    }
    let processes: Vec<_> = (0..PROCESSES).map(|_| one_process()).collect();
    println!("| Call | Input | Bytes | Archive, ns | Rust, ns | By Rust | from..to | C peer, ns | By the peer | from..to |");
    println!("|---|---|---:|---:|---:|---:|---|---:|---:|---|");
    for (row, sample) in samples::all().iter().enumerate() {
        let column = |at: usize| -> Vec<f64> { processes.iter().filter_map(|lines| lines[row].get(at).copied()).collect() };
        let peer = if column(3).is_empty() { String::from("- | - | -") } else { cells(&column(3), &column(4)) };
        let bytes = sample.bytes() / sample.cases.len();
        let (archive, rust) = (median(&column(0)), cells(&column(1), &column(2)));
        println!("| {} | {} | {bytes} | {archive:.0} | {rust} | {peer} |", sample.call.name(), sample.input);
    }
}
