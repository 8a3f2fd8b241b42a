//! Recorded bytes of real programs: both sides give what the index says.
use oyinkafubo_host::case::{compare, observe, sides, Call};
use oyinkafubo_host::recorded;

/// Holds every recorded file of the call to the index, on both sides, and wants this many of them.
fn check(call: Call, count: usize) {
    let files: Vec<_> = recorded::all().into_iter().filter(|recorded| recorded.case.call == call).collect();
    assert_eq!(files.len(), count, "recorded files for {}", call.name());
    for recorded in files {
        for (name, side) in sides() {
            let observed = observe(side, &recorded.case);
            let given = if observed.code == 0 { Ok(observed.answer) } else { Err(observed.code) };
            assert_eq!(given, recorded.expected, "{name}: {}", recorded.file);
        }
        compare(&recorded.case);
    }
}

#[test]
fn scgi_of_nginx() {
    check(Call::Read, 52);
}

#[test]
fn http_of_curl() {
    check(Call::Gateway, 54);
}

#[test]
fn scripts_of_wsgiref() {
    check(Call::Response, 10);
}
