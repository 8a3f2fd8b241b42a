//! Makes one kind of call many times, for a tool that counts instructions. `repeat` lists the samples, one line each; `repeat SIDE NUMBER
//! TIMES` runs the sample of that number on `archive`, on `reference`, or on `peer` where that is linked.
use oyinkafubo_host::calls::Calls;
use oyinkafubo_host::case::sides;
use oyinkafubo_host::samples;
use std::{env, process};

fn usage() -> ! {
    eprintln!("usage: repeat [archive|reference|peer NUMBER TIMES]");
    process::exit(2);
}

/// The side of a name.
fn side_of(name: &str) -> Option<&'static dyn Calls> {
    #[cfg(peer)]
    if name == "peer" {
        return Some(&oyinkafubo_host::peer::Peer);
    }
    sides().into_iter().find(|side| side.0 == name).map(|side| side.1)
}

fn main() {
    let words: Vec<String> = env::args().skip(1).collect();
    let samples = samples::all();
    if words.is_empty() {
        for (number, sample) in samples.iter().enumerate() {
            println!("{number}\t{}\t{}\t{}", sample.cases.len(), sample.call.name(), sample.input);
        }
        return;
    }
    let [name, number, times] = &words[..] else { usage() };
    let (Ok(number), Ok(times)) = (number.parse::<usize>(), times.parse()) else { usage() };
    let (Some(side), Some(sample)) = (side_of(name), samples.get(number)) else { usage() };
    sample.repeat(side, times);
}
