//! Runs printed cases again: OY_CASE names a file of lines as a failing test prints them.
use oyinkafubo_host::case::{compare, Call, Case};
use oyinkafubo_host::generate;
use oyinkafubo_host::random::Random;
use std::{env, fs};

#[test]
fn cases_of_a_file() {
    let Ok(file) = env::var("OY_CASE") else {
        return;
    };
    let text = fs::read_to_string(&file).unwrap_or_else(|error| panic!("{file}: {error}"));
    for line in text.lines() {
        let case = Case::of_line(line).unwrap_or_else(|| panic!("{file}: no case: {line}"));
        let observed = compare(&case);
        println!("{}: {} {:?}", case.call.name(), observed.code, observed.answer);
    }
}

/// A printed case reads back as itself.
#[test]
fn a_line_is_the_case() {
    let mut random = Random::seeded("replay");
    for call in [Call::Read, Call::Write, Call::Find, Call::Setting, Call::Spool, Call::Gateway, Call::Response, Call::Feed] {
        for _ in 0..20 {
            let case = generate::case(&mut random, call);
            assert_eq!(Case::of_line(&case.line()), Some(case));
        }
    }
}
