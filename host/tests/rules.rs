//! The bytes that the rules name, on both sides.
use oyinkafubo_host::answers::{Places, REFUSED, RFC_3875, WHOLE};
use oyinkafubo_host::case::sides;
use oyinkafubo_host::text::{bytes, EXAMPLE};

const EXAMPLE_PLACES: Places = Places { block_start: 3, block_len: 70, body_start: 74, body_len: 27, used: 101 };

#[test]
fn refused_by_the_reader() {
    let cases = [("", 1), ("0", 1), ("05", 2), (":", 2), ("16385", 3), ("0:,", 8), ("0:x", 4), (&EXAMPLE[..100], 1)];
    for (name, side) in sides() {
        for (text, number) in cases {
            assert_eq!(side.read(&bytes(text)), Err(number), "{name}: {text}");
        }
    }
}

#[test]
fn the_example_of_the_scgi_text() {
    let example = bytes(EXAMPLE);
    let followed = [&example[..], b"x"].concat();
    for (name, side) in sides() {
        assert_eq!(side.read(&example), Ok(EXAMPLE_PLACES), "{name}");
        assert_eq!(side.read(&followed), Ok(EXAMPLE_PLACES), "{name}, followed by a byte");
        let (block, body) = (&example[3..73], &example[74..]);
        let mut out = [0; 101];
        assert_eq!(side.write(block, body, &mut out).map(|written| written.bytes), Ok(101), "{name}");
        assert_eq!(&out[..], example, "{name}");
    }
}

#[test]
fn the_example_as_a_spool() {
    for (name, side) in sides() {
        let mut lengths = [7; 3];
        let end = side.spool(&bytes(EXAMPLE), &mut lengths).expect("a spool has an ending");
        assert_eq!((end.stored, end.ending, end.number, lengths), (1, WHOLE, 0, [101, 7, 7]), "{name}");
        let end = side.spool(b"", &mut []).expect("a spool has an ending");
        assert_eq!((end.stored, end.ending, end.number), (0, WHOLE, 0), "{name}");
    }
}

/// A decimal number has at most ten digits, zeros in front counted: 8, behind 7 and before 9 and 10.
#[test]
fn ten_digits_in_scgi() {
    let cases = [
        ("CONTENT_LENGTH|0000000003|SCGI|1|", Ok(40)),
        ("CONTENT_LENGTH|00000000003|SCGI|1|", Err(8)),
        ("CONTENT_LENGTH|9999999999|SCGI|1|", Err(9)),
        ("CONTENT_LENGTH|99999999999|SCGI|1|", Err(8)),
        ("CONTENT_LENGTH|18446744073709551619|SCGI|1|", Err(8)),
        ("CONTENT_LENGTH|00000000003|SCGI|1|A||A||", Err(7)),
        ("CONTENT_LENGTH|00000000003|", Err(8)),
        ("CONTENT_LENGTH|0000000003|", Err(10)),
        (&format!("CONTENT_LENGTH|{}|SCGI|1|", "0".repeat(4_000) + "3"), Err(8)),
    ];
    for (name, side) in sides() {
        for (block, expected) in cases {
            let request = bytes(&format!("{}:{block},abc", block.len()));
            assert_eq!(side.read(&request).map(|places| places.used), expected, "{name}, read: {block}");
            let written = side.write(&bytes(block), b"abc", &mut [0; 40]).map(|written| written.bytes);
            assert_eq!(written, expected, "{name}, write: {block}");
        }
    }
}

/// A request with eleven digits between two others.
#[test]
fn ten_digits_in_a_spool() {
    let around = "24:CONTENT_LENGTH|0|SCGI|1|,";
    let ten = bytes(&format!("{around}33:CONTENT_LENGTH|0000000003|SCGI|1|,abc{around}"));
    let eleven = bytes(&format!("{around}34:CONTENT_LENGTH|00000000003|SCGI|1|,abc{around}"));
    for (name, side) in sides() {
        let mut lengths = [7; 4];
        let end = side.spool(&ten, &mut lengths).expect("a spool has an ending");
        assert_eq!((end.stored, end.ending, end.number, lengths), (3, WHOLE, 0, [28, 40, 28, 7]), "{name}");
        let mut lengths = [7; 4];
        let end = side.spool(&eleven, &mut lengths).expect("a spool has an ending");
        assert_eq!((end.stored, end.ending, end.number, lengths), (1, REFUSED, 8, [28, 7, 7, 7]), "{name}");
    }
}

/// Of equal names the first counts; an empty value is there; an absent name is not, and its part is empty.
#[test]
fn lookup() {
    let (block, site) = (bytes("A|1|B||A|2|"), bytes("A|9|D|3|"));
    for (name, side) in sides() {
        let find = |name: &[u8]| side.find(&block, name).map(|found| found.numbers());
        assert_eq!(find(b"A"), Ok([1, 2, 1]), "{name}");
        assert_eq!(find(b"B"), Ok([1, 6, 0]), "{name}");
        assert_eq!(find(b"C"), Ok([0, 0, 0]), "{name}");
        assert_eq!(side.find(b"A\0", b"A").map(|found| found.there), Err(5), "{name}");
        let setting = |name: &[u8]| side.setting(&block, &site, name).map(|found| found.numbers());
        assert_eq!(setting(b"A"), Ok([1, 2, 1]), "{name}");
        assert_eq!(setting(b"D"), Ok([2, 6, 1]), "{name}");
        assert_eq!(setting(b"E"), Ok([0, 0, 0]), "{name}");
        assert_eq!(side.setting(&block, b"\0", b"A").map(|found| found.origin), Err(5), "{name}");
    }
}

#[test]
fn responses() {
    let cases = [
        ("Status: 200 OK\r\nContent-Type: text/plain\r\n\r\n42", Ok([4, 200, 0, 0, 44, 2])),
        ("Location: /x\n\n", Ok([1, 0, 10, 2, 14, 0])),
        ("Location: http://q/x\n\n", Ok([2, 302, 10, 10, 22, 0])),
        ("Location: a:b\nStatus: 301\nContent-Type: t\n\nx", Ok([3, 301, 10, 3, 43, 1])),
        ("Location: /x\nX: y\n\n", Err(25)),
        ("Location: /x\n\nbody", Err(25)),
        ("\n", Err(25)),
        ("HTTP/1.1 200 OK\n\n", Err(24)),
    ];
    for (name, side) in sides() {
        for (script, expected) in cases {
            let given = side.response(RFC_3875, b"GET", script.as_bytes()).map(|action| action.numbers());
            assert_eq!(given, expected, "{name}: {script}");
        }
    }
}

mod gateway {
    use oyinkafubo_host::calls::{Blocks, Calls};
    use oyinkafubo_host::case::sides;
    use oyinkafubo_host::meaning::meaning;
    use oyinkafubo_host::recorded;
    use oyinkafubo_host::text::bytes;

    const WHOLE_OUTPUT: &str = "267:CONTENT_LENGTH|0|SCGI|1|GATEWAY_INTERFACE|CGI/1.1|PATH_INFO|/7|QUERY_STRING|x=1|REMOTE_ADDR|10.0.0.9|\
        REQUEST_METHOD|GET|REQUEST_URI|/jobs/7?x=1|SCRIPT_NAME|/jobs|SERVER_NAME|q.example|SERVER_PORT|80|SERVER_PROTOCOL|HTTP/1.1|\
        SERVER_SOFTWARE|gate/1|HTTP_HOST|q.example|,";

    /// The numbers of the answer, or the refusal, and the output, which has this room; under these mounts, with | for NUL.
    pub fn forward_under(side: &dyn Calls, mounts: &str, http: &[u8], room: usize) -> (Result<[u64; 4], u8>, Vec<u8>) {
        let lent = recorded::blocks("10.0.0.9", "/jobs", "pool");
        let blocks = Blocks { facts: &lent[0], site: &lent[1], mounts: &bytes(mounts) };
        let mut out = vec![0; room];
        let given = side.forward(blocks, http, &mut out);
        (given.map(|forwarded| forwarded.numbers()), out)
    }

    fn forward(side: &dyn Calls, http: &[u8]) -> (Result<[u64; 4], u8>, Vec<u8>) {
        forward_under(side, "/jobs|pool|", http, 1000)
    }

    #[test]
    fn the_whole_output_of_272_bytes() {
        let http = b"GET /jobs/7?x=1 HTTP/1.1\r\nHost: q.example\r\n\r\n";
        for (name, side) in sides() {
            let (given, out) = forward(side, http);
            assert_eq!(given, Ok([272, 6, 4, 45]), "{name}");
            assert_eq!(&out[..272], bytes(WHOLE_OUTPUT), "{name}");
            assert!(out[272..].iter().all(|&byte| byte == 0), "{name}: bytes past the output");
        }
    }

    /// The refusals and the order of two faults.
    #[test]
    fn refused() {
        let cases: [(&[u8], u8); 13] = [
            (b"GET /a%2Fb HTTP/1.1\r\nHost: q\r\n\r\n", 14),
            (b"GET /jobsx HTTP/1.1\r\nHost: q\r\n\r\n", 19),
            (b"GET /jobs HTTP/1.1\r\nHost: q\r\n", 1),
            (b"GET  HTTP/1.1\r\n\r\n", 14),
            (b"GET  HTTP/1.2\r\n\r\n", 13),
            (b"GET /jobs HTTP/1.10\r\n\r\n", 12),
            (b"GET /jobs HTTP/1.1\r\n\r\n", 16),
            (b"GET /jobs HTTP/1.1\r\nHost: q\r\nJob_Id: 1\r\n\r\n", 15),
            (b"GET /jobs HTTP/1.0\r\nContent-Length: 5, 5\r\n\r\n", 17),
            (b"GET /jobs HTTP/1.0\r\nTransfer-Encoding: chunked\r\n\r\n", 18),
            (b"GET /x HTTP/1.0\r\nContent-Length: 1048577\r\n\r\n", 19),
            (b"GET /jobs HTTP/1.0\r\nContent-Length: 1048577\r\n\r\n", 9),
            (b"GET /jobs HTTP/1.0\r\nContent-Length: 1\r\n\r\n", 1),
        ];
        for (name, side) in sides() {
            for (http, number) in cases {
                let (given, out) = forward(side, http);
                assert_eq!(given, Err(number), "{name}: {}", String::from_utf8_lossy(http));
                assert!(out.iter().all(|&byte| byte == 0), "{name}: the output of a refused request");
            }
        }
    }

    /// A decimal number has at most ten digits, after the blanks around it are gone: 17, behind 16 and before 18, 19 and 9; 20 in the port.
    #[test]
    fn ten_digits() {
        let cases: [(&[u8], Result<u64, u8>); 7] = [
            (b"POST /jobs HTTP/1.0\r\nContent-Length: \t0000000003 \r\n\r\nabc", Ok(3)),
            (b"POST /jobs HTTP/1.0\r\nContent-Length: 00000000003\r\n\r\nabc", Err(17)),
            (b"POST /jobs HTTP/1.0\r\nContent-Length: 9999999999\r\n\r\nabc", Err(9)),
            (b"POST /jobs HTTP/1.0\r\nContent-Length: 99999999999\r\n\r\nabc", Err(17)),
            (b"POST /jobs HTTP/1.0\r\nContent-Length: 18446744073709551619\r\n\r\nabc", Err(17)),
            (b"POST /jobs HTTP/1.1\r\nContent-Length: 00000000003\r\n\r\nabc", Err(16)),
            (b"POST /x HTTP/1.0\r\nTransfer-Encoding: a\r\nContent-Length: 00000000003\r\n\r\nabc", Err(17)),
        ];
        let mut lent = recorded::blocks("10.0.0.9", "/jobs", "pool");
        let request = b"GET /jobs HTTP/1.0\r\n\r\n";
        for (name, side) in sides() {
            for (http, expected) in cases {
                let (given, out) = forward(side, http);
                let body =
                    given.map(|numbers| out[..numbers[0] as usize].rsplit(|&byte| byte == b',').next().map_or(0, |body| body.len() as u64));
                assert_eq!(body, expected, "{name}: {}", String::from_utf8_lossy(http));
            }
            for port in ["9999999999", "10000000080", "0000000080", "00000000080", "18446744073709551696"] {
                lent[1] = bytes(&format!("SERVER_NAME|q|SERVER_SOFTWARE|g|SERVER_PORT|{port}|"));
                let blocks = Blocks { facts: &lent[0], site: &lent[1], mounts: &lent[2] };
                assert_eq!(side.forward(blocks, request, &mut [0; 1000]).map(|given| given.used), Err(20), "{name}: {port}");
            }
        }
    }

    /// The SCGI bytes of a request with these field lines, with | for NUL.
    fn with_fields(side: &dyn Calls, lines: &str) -> String {
        let http = format!("GET /jobs HTTP/1.0\r\n{lines}\r\n");
        let (given, out) = forward(side, http.as_bytes());
        let written = given.expect("accepted")[0] as usize;
        String::from_utf8_lossy(&out[..written]).replace('\0', "|")
    }

    /// Values of Cookie, letter case aside, are joined with a semicolon and a space, those of any other name as before.
    #[test]
    fn cookies() {
        let cases = [
            ("Cookie: a\r\n", "HTTP_COOKIE|a|,"),
            ("Cookie: a\r\nCookie: b\r\n", "HTTP_COOKIE|a; b|,"),
            ("Cookie: a\r\nCOOKIE: b\r\ncookie: c\r\n", "HTTP_COOKIE|a; b; c|,"),
            ("Cookie:\r\nCookie: a\r\n", "HTTP_COOKIE|; a|,"),
            ("Cookie: a\r\nCookie:\r\n", "HTTP_COOKIE|a; |,"),
            ("Cookie: a;\r\nCookie: b\r\n", "HTTP_COOKIE|a;; b|,"),
            ("Cookie2: a\r\nCookie2: b\r\n", "HTTP_COOKIE2|a, b|,"),
            ("Set-Cookie: a\r\nSet-Cookie: b\r\n", "HTTP_SET_COOKIE|a, b|,"),
            ("Cooki: a\r\nCooki: b\r\n", "HTTP_COOKI|a, b|,"),
            ("X: 1\r\nCookie: a\r\nX: 2\r\nCookie: b\r\nY: 3\r\n", "HTTP_X|1, 2|HTTP_COOKIE|a; b|HTTP_Y|3|,"),
        ];
        for (name, side) in sides() {
            for (lines, end) in cases {
                let bytes = with_fields(side, lines);
                assert!(bytes.ends_with(&format!("|SERVER_SOFTWARE|gate/1|{end}")), "{name}: {lines} gives {bytes}");
            }
        }
    }

    /// Two Cookie fields are the same as one of the joined value; one with a comma is another.
    #[test]
    fn meanings_of_cookies() {
        let two = "Cookie: a\r\nCookie: b\r\n";
        let meant = |lines: &str| meaning(format!("GET /jobs HTTP/1.0\r\n{lines}\r\n").as_bytes());
        for (one, equal) in [("Cookie: a; b\r\n", true), ("Cookie: a, b\r\n", false), ("Cookie: a;b\r\n", false)] {
            assert_eq!(meant(one) == meant(two), equal, "{one}");
            for (name, side) in sides() {
                assert_eq!(with_fields(side, one) == with_fields(side, two), equal, "{name}: {one}");
            }
        }
    }

    /// 8,192 bytes without an end are 11, one byte less is 1.
    #[test]
    fn the_head_s_length() {
        let mut http = b"GET /jobs HTTP/1.0\r\nX: ".to_vec();
        http.resize(8191, b'x');
        for (name, side) in sides() {
            assert_eq!(forward(side, &http).0, Err(1), "{name}");
            let long = [&http[..], b"x"].concat();
            assert_eq!(forward(side, &long).0, Err(11), "{name}");
            let ends = [&http[..8188], b"\r\n\r\n"].concat();
            assert_eq!(forward(side, &ends).0.map(|numbers| numbers[3]), Err(21), "{name}: accepted but for the output");
            let late = [&http[..8189], b"\r\n\r\n"].concat();
            assert_eq!(forward(side, &late).0, Err(11), "{name}");
        }
    }

    /// How many bytes and how many headers the block has that is written for a request that must be accepted.
    fn block_of(side: &dyn Calls, blocks: Blocks, http: &[u8]) -> (u64, usize) {
        let mut out = vec![0; 20_000];
        let written = side.forward(blocks, http, &mut out).expect("accepted").numbers()[0] as usize;
        let places = side.read(&out[..written]).expect("an SCGI request");
        let block = &out[places.block_start as usize..][..places.block_len as usize];
        (places.block_len, block.iter().filter(|&&byte| byte == 0).count() / 2)
    }

    /// A block of such headers and, as its last value, as many bytes as it may have.
    fn filled(start: &str) -> Vec<u8> {
        let mut block = bytes(start);
        block.resize(1_023, b'a');
        block.push(0);
        block
    }

    /// 02 §10: the variables have at most 14,720 bytes and are at most 79, far from 16,384 and 128.
    #[test]
    fn the_most_variables() {
        let names: Vec<String> =
            (b'A'..=b'H').flat_map(|a| (b'0'..=b'7').map(move |b| format!("{}{}:\r\n", a as char, b as char))).collect();
        let line = format!("GET /jobs/{} HTTP/1.0\r\n", "a".repeat(4_090));
        let site = filled("SERVER_NAME|q|SERVER_PORT|80|SERVER_SOFTWARE|");
        let facts = filled("REMOTE_ADDR|");
        let mounts = bytes("/jobs|app|");
        let start = line + &names[..63].concat();
        let longest = format!("{start}{}:\r\n\r\n", "a".repeat(8_187 - start.len()));
        let asked = filled("AUTH_TYPE|Basic|REMOTE_USER|u|REMOTE_ADDR|");
        let most = format!("GET /jobs HTTP/1.0\r\nContent-Type:\r\n{}\r\n", names[..63].concat());
        for (name, side) in sides() {
            let blocks = Blocks { facts: &facts, site: &site, mounts: &mounts };
            assert_eq!(longest.len(), 8_192);
            assert_eq!(block_of(side, blocks, longest.as_bytes()), (14_720, 77), "{name}");
            let blocks = Blocks { facts: &asked, site: &site, mounts: &mounts };
            assert_eq!(block_of(side, blocks, most.as_bytes()).1, 79, "{name}");
        }
    }

    /// Values and targets of every length, over the places where the archive takes longer buffers, give the same bytes on both sides.
    #[test]
    fn every_length() {
        let lent = recorded::blocks("10.0.0.9", "/jobs", "pool");
        let blocks = Blocks { facts: &lent[0], site: &lent[1], mounts: &lent[2] };
        for n in 0..2_000 {
            let a = "a".repeat(n);
            for http in [format!("GET /jobs HTTP/1.0\r\nX: {a}\r\n\r\n"), format!("GET /jobs/{a} HTTP/1.0\r\n\r\n")] {
                let given = sides().map(|(_, side)| {
                    let mut out = vec![7; 8_000];
                    (side.forward(blocks, http.as_bytes(), &mut out).map(|forwarded| forwarded.numbers()), out)
                });
                assert!(given[0].0.is_ok() && given[0] == given[1], "{n}: {http}");
            }
        }
    }
}

/// 02 §13: a mount's value is a pool, or a pool, `;` and a limit of the body's length.
mod mount_limits {
    use super::gateway::forward_under;
    use oyinkafubo_host::calls::Calls;
    use oyinkafubo_host::case::sides;
    use oyinkafubo_host::refusal::MAX_BODY;
    use oyinkafubo_host::text::bytes;

    /// The numbers of the answer, or the refusal, with room enough.
    fn forward(side: &dyn Calls, mounts: &str, http: &[u8]) -> Result<[u64; 4], u8> {
        let (given, out) = forward_under(side, mounts, http, http.len() + 1000);
        assert!(given.is_ok() || out.iter().all(|&byte| byte == 0), "the output of a refused request");
        given
    }

    /// A request that states this length of its body, and has so many bytes of it.
    fn post(path: &str, stated: usize, len: usize) -> Vec<u8> {
        let mut http = format!("POST {path} HTTP/1.0\r\nContent-Length: {stated}\r\n\r\n").into_bytes();
        http.resize(http.len() + len, b'b');
        http
    }

    #[rustfmt::skip]
    const BAD: [&str; 23] = [
        "", ";", ";5", ";;", ";;5", "p;", "p;;", "p;;5", "p;5;", "p;5;6", "p;x", "p;5x", "p; 5", "p;5 ", "p;+5", "p;-5", "p;0x5",
        "p;1048577", "p;9999999999", "p;00000000005", "p;00001048576", "p;99999999999", "p;18446744073709551621",
    ];

    /// 20, whether the mount wins or not, in each place, before the first byte of HTTP is there, and before 19.
    #[test]
    fn bad_values() {
        let around = [("/jobs|", "|"), ("/jobs|", "|/x|p|"), ("/jobs|p|/x|", "|"), ("/x|", "|/jobs|p|"), ("/jobs|", "|/jobs/7|p|")];
        let requests: [&[u8]; 4] = [b"GET /jobs HTTP/1.0\r\n\r\n", b"GET /jobs/7 HTTP/1.0\r\n\r\n", b"GET /y HTTP/1.0\r\n\r\n", b""];
        for (name, side) in sides() {
            for value in BAD {
                for mounts in around.map(|(before, after)| format!("{before}{value}{after}")) {
                    assert_eq!(requests.map(|http| forward(side, &mounts, http)), [Err(20); 4], "{name}: {mounts}");
                }
            }
        }
    }

    /// Values with the length of their pool and their limit.
    #[rustfmt::skip]
    const GOOD: [(&str, u64, usize); 12] = [
        ("p", 1, MAX_BODY), ("p;0", 1, 0), ("p;0000000000", 1, 0), ("p;1", 1, 1), ("pool;5", 4, 5), ("p;05", 1, 5), ("p;0000000005", 1, 5),
        ("5;7", 1, 7), (" a=,:", 5, MAX_BODY), ("p;1048575", 1, MAX_BODY - 1), ("p;1048576", 1, MAX_BODY), ("p;0001048576", 1, MAX_BODY),
    ];

    /// Accepted at the limit, and 1 where a byte is not there; above it 9, also where no byte of the body is there. The answer names the
    /// pool without `;` and limit.
    #[test]
    fn at_the_limit_and_above() {
        for (name, side) in sides() {
            for (value, pool_len, limit) in GOOD {
                let mounts = format!("/jobs|{value}|");
                let most = post("/jobs", limit, limit);
                let places = forward(side, &mounts, &most).map(|numbers| [numbers[1], numbers[2], numbers[3]]);
                assert_eq!(places, Ok([6, pool_len, most.len() as u64]), "{name}: {value}");
                assert_eq!(forward(side, &mounts, &most[..most.len() - 1]), Err(1), "{name}: {value}, cut");
                for len in [0, limit, limit + 1] {
                    assert_eq!(forward(side, &mounts, &post("/jobs", limit + 1, len)), Err(9), "{name}: {value}, {len} bytes");
                }
                let without = forward(side, &mounts, b"GET /jobs HTTP/1.0\r\n\r\nbbb").map(|numbers| numbers[3]);
                assert_eq!(without, Ok(22), "{name}: {value}, no body");
            }
        }
    }

    /// The limit is that of the longest mount that fits, be it smaller or larger than that of a shorter one.
    #[test]
    fn the_winning_mount_s_limit() {
        let cases = [
            ("/jobs|p;5|/jobs/night|q;2|", [5, 2]),
            ("/jobs|p;2|/jobs/night|q;5|", [2, 5]),
            ("/jobs/night|q;5|/jobs|p;2|", [2, 5]),
            ("/jobs/night|q;2|/jobs|p|", [MAX_BODY, 2]),
            ("/jobs|p;0|/jobs/night|q|", [0, MAX_BODY]),
        ];
        for (name, side) in sides() {
            for (mounts, limits) in cases {
                for (path, pool, limit) in [("/jobs/nightly", b'p', limits[0]), ("/jobs/night/7", b'q', limits[1])] {
                    let given = forward(side, mounts, &post(path, limit, limit)).expect("accepted");
                    assert_eq!((mounts.as_bytes()[given[1] as usize], given[2]), (pool, 1), "{name}: {path} under {mounts}");
                    assert_eq!(forward(side, mounts, &post(path, limit + 1, limit + 1)), Err(9), "{name}: {path} under {mounts}");
                }
            }
        }
    }

    /// 9 behind 17, 18 and 19, and before 1 and 21.
    #[test]
    fn order() {
        let cases: [(&[u8], u8); 6] = [
            (b"POST /jobs HTTP/1.0\r\nContent-Length: 00000000003\r\n\r\nabc", 17),
            (b"POST /jobs HTTP/1.0\r\nTransfer-Encoding: a\r\nContent-Length: 3\r\n\r\nabc", 18),
            (b"POST /jobsx HTTP/1.0\r\nContent-Length: 3\r\n\r\nabc", 19),
            (b"POST /jobs HTTP/1.0\r\nContent-Length: 3\r\n\r\n", 9),
            (b"POST /jobs HTTP/1.0\r\nContent-Length: 2\r\n\r\na", 1),
            (b"POST /jobs HTTP/1.0\r\nContent-Length: 2\r\n\r\nab", 21),
        ];
        for (name, side) in sides() {
            for (http, number) in cases {
                let (given, _) = forward_under(side, "/jobs|p;2|", http, 0);
                assert_eq!(given, Err(number), "{name}: {}", String::from_utf8_lossy(http));
            }
        }
    }

    /// Mounts with limits of their own, this many, and a last one for /jobs with which the block has this many bytes.
    fn many(count: usize, len: usize) -> String {
        let first: String = (0..count).map(|at| format!("/m{at}|p;{at:010}|")).collect();
        let pool = "p".repeat(len - first.len() - "/jobs|;5|".len());
        format!("{first}/jobs|{pool};5|")
    }

    /// 32 mounts and 4,096 bytes; one more of either is 20.
    #[test]
    fn the_most_mounts() {
        let most = many(31, 4_096);
        let start = most.find("/jobs|").expect("the last mount") + "/jobs|".len();
        let len = most.len() - start - ";5|".len();
        for (name, side) in sides() {
            let given = forward(side, &most, &post("/jobs", 5, 5)).map(|numbers| [numbers[1], numbers[2]]);
            assert_eq!(given, Ok([start as u64, len as u64]), "{name}");
            assert_eq!(forward(side, &most, &post("/jobs", 6, 6)), Err(9), "{name}");
            assert!(forward(side, &most, &post("/m30", 30, 30)).is_ok(), "{name}");
            assert_eq!(forward(side, &most, &post("/m30", 31, 31)), Err(9), "{name}");
            assert_eq!(forward(side, &many(31, 4_097), b""), Err(20), "{name}: a byte more");
            assert_eq!(forward(side, &many(32, 1_000), b""), Err(20), "{name}: a mount more");
        }
    }

    /// The reader and the writer keep 1,048,576, also where a mount refuses such a body.
    #[test]
    fn reader_and_writer_keep_the_old_limit() {
        for (name, side) in sides() {
            for (stated, accepted) in [(MAX_BODY, true), (MAX_BODY + 1, false)] {
                let (block, body) = (bytes(&format!("CONTENT_LENGTH|{stated}|SCGI|1|")), vec![b'b'; stated]);
                let request = [format!("{}:", block.len()).as_bytes(), &block, b",", &body].concat();
                let expected = if accepted { Ok(request.len() as u64) } else { Err(9) };
                assert_eq!(forward(side, "/jobs|p;5|", &post("/jobs", stated, stated)), Err(9), "{name}");
                assert_eq!(side.read(&request).map(|places| places.used), expected, "{name}, read");
                let written = side.write(&block, &body, &mut vec![0; request.len()]).map(|written| written.bytes);
                assert_eq!(written, expected, "{name}, write");
            }
        }
    }
}

/// 02 §9: under the draft edition a Location with any other method than GET and HEAD is 25; under the RFC edition no method is looked at.
mod editions {
    use oyinkafubo_host::answers::{DRAFT_1996, RFC_3875};
    use oyinkafubo_host::calls::Calls;
    use oyinkafubo_host::case::sides;

    /// Outputs of each row of the table with their answers, and whether they have a Location.
    const ROWS: [(&str, [u64; 6], bool); 7] = [
        ("Location: /x\n\n", [1, 0, 10, 2, 14, 0], true),
        ("Location: http://q/x\n\n", [2, 302, 10, 10, 22, 0], true),
        ("X: y\r\nLocation: a:b\r\n\r\n", [2, 302, 16, 3, 23, 0], true),
        ("Location: a:b\nStatus: 301\nContent-Type: t\n\nx", [3, 301, 10, 3, 43, 1], true),
        ("Content-Type: t\nStatus: 308 y\nLocation: a:b\n\n", [3, 308, 40, 3, 45, 0], true),
        ("Content-Type: t\n\nx", [4, 200, 0, 0, 17, 1], false),
        ("Status: 302\nContent-Type: t\n\nx", [4, 302, 0, 0, 29, 1], false),
    ];

    /// Methods, and whether a script may send Location for them under the draft edition.
    #[rustfmt::skip]
    const METHODS: [(&str, bool); 16] = [
        ("GET", true), ("HEAD", true), ("POST", false), ("get", false), ("GET ", false), ("", false),
        ("PUT", false), ("Head", false), (" GET", false), ("GETS", false), ("GE", false),
        ("HEA", false), ("HEADS", false), ("HEAT", false), ("GET\0", false), ("G\0T", false),
    ];

    const EDITIONS: [u64; 2] = [RFC_3875, DRAFT_1996];

    /// The numbers of the answer, or the refusal.
    fn given(side: &dyn Calls, edition: u64, method: &str, script: &str) -> Result<[u64; 6], u8> {
        side.response(edition, method.as_bytes(), script.as_bytes()).map(|action| action.numbers())
    }

    #[test]
    fn each_row_with_each_method() {
        for (name, side) in sides() {
            for (script, answer, location) in ROWS {
                for (method, allowed) in METHODS {
                    let by_draft = if location && !allowed { Err(25) } else { Ok(answer) };
                    let both = EDITIONS.map(|edition| given(side, edition, method, script));
                    assert_eq!(both, [Ok(answer), by_draft], "{name}: {method:?}, {script:?}");
                }
            }
        }
    }

    /// The number is the same under both editions for every method: 24 with and without a Location, and 25 that needs no method.
    #[test]
    fn refused_anyway() {
        let long = format!("Location: a:b\nX: {}\n\n", "x".repeat(8_174));
        let lines = format!("Location: a:b\n{}\n", "X:\n".repeat(64));
        assert_eq!(long.len(), 8_193);
        let cases = [
            ("Location: /x\nno colon\n\n", 24),
            ("no colon\nLocation: /x\n\n", 24),
            ("Location: /x\nLocation: /x\n: y\n\n", 24),
            ("Location: /x\n", 24),
            ("Location : /x\n\n", 24),
            ("Location: /\u{1}\n\n", 24),
            (&long[..], 24),
            (&lines[..], 24),
            ("no colon\n\n", 24),
            ("", 24),
            ("\n", 25),
            ("X: y\n\n", 25),
            ("Content-Type:\n\n", 25),
            ("Content-Type: t\nStatus: 99\n\n", 25),
            ("Content-Type: t\nContent-Type: t\n\n", 25),
            ("Location: /..\n\n", 25),
            ("Location: 1a:b\n\n", 25),
            ("Location:\n\n", 25),
            ("Location: /x\nLocation: /x\n\n", 25),
            ("Location: /x\nlocation: a:b\n\n", 25),
            ("Location: /x\n\nbody", 25),
        ];
        for (name, side) in sides() {
            for (script, number) in cases {
                for (method, _) in METHODS {
                    let both = EDITIONS.map(|edition| given(side, edition, method, script));
                    assert_eq!(both, [Err(number); 2], "{name}: {method:?}, {script:?}");
                }
            }
        }
    }

    /// A field of the head with this whole name, letter case aside, wherever it stands.
    #[test]
    fn what_a_location_is() {
        let cases = [
            ("location: /x\n\n", true),
            ("LOCATION:/x\n\n", true),
            ("lOCATIOn:\t/x \r\n\r\n", true),
            ("X: y\nlocation: a:b\n\n", true),
            ("Content-Type: t\nStatus: 303\nlocation: a:b\nX: y\n\n", true),
            ("Locations: /x\nContent-Type: t\n\n", false),
            ("Locatio: /x\nContent-Type: t\n\n", false),
            ("X-Location: /x\nContent-Type: t\n\n", false),
            ("Content_Location: /x\nContent-Type: t\n\n", false),
            ("Content-Type: Location: /x\n\n", false),
            ("Content-Type: t\n\nLocation: /x\n\n", false),
        ];
        for (name, side) in sides() {
            for (script, location) in cases {
                let by_rfc = given(side, RFC_3875, "POST", script);
                assert!(by_rfc.is_ok(), "{name}: {script:?}");
                assert_eq!(given(side, DRAFT_1996, "HEAD", script), by_rfc, "{name}: {script:?}");
                let by_draft = if location { Err(25) } else { by_rfc };
                assert_eq!(given(side, DRAFT_1996, "POST", script), by_draft, "{name}: {script:?}");
            }
        }
    }

    /// What the call gives with a list of this length, and the list, which had 7 in it.
    fn into_list(side: &dyn Calls, edition: u64, method: &str, script: &str, len: usize) -> (u64, Vec<u64>) {
        let mut list = vec![7; len];
        (side.read_response(edition, method.as_bytes(), script.as_bytes(), &mut list), list)
    }

    /// 20 for every other number, before 24, 25 and 21. Some of these numbers have the low bits of an edition.
    #[test]
    fn no_such_edition() {
        let scripts = ["Location: /x\n\n", "Content-Type: t\n\n", "\n", "no colon\nLocation: /x\n\n", ""];
        for (name, side) in sides() {
            for edition in [2, 3, 256, 257, 1 << 32, (1 << 32) + 1, 1 << 63, (1 << 63) + 1, u64::MAX - 1, u64::MAX] {
                for (method, script) in ["GET", "POST", ""].into_iter().flat_map(|method| scripts.map(|script| (method, script))) {
                    let lists = [0, 5, 6].map(|len| into_list(side, edition, method, script, len));
                    assert_eq!(lists, [0, 5, 6].map(|len| (20, vec![7; len])), "{name}: {edition}, {method:?}, {script:?}");
                }
            }
        }
    }

    /// 24 before 25, and 25 before 21; nothing is stored.
    #[test]
    fn order() {
        let cases = [
            (DRAFT_1996, "POST", "no colon\nLocation: /x\n\n", 24),
            (DRAFT_1996, "POST", "Location: /x\n\n", 25),
            (DRAFT_1996, "", "Location: a:b\nStatus: 302\nContent-Type: t\n\n", 25),
            (DRAFT_1996, "GET", "Location: /..\n\n", 25),
            (DRAFT_1996, "GET", "Location: /x\n\n", 21),
            (DRAFT_1996, "POST", "Content-Type: t\n\n", 21),
            (RFC_3875, "POST", "no colon\nLocation: /x\n\n", 24),
            (RFC_3875, "POST", "Location: /..\n\n", 25),
            (RFC_3875, "POST", "Location: /x\n\n", 21),
        ];
        for (name, side) in sides() {
            for (edition, method, script, number) in cases {
                let lists = [0, 5].map(|len| into_list(side, edition, method, script, len));
                assert_eq!(lists, [0, 5].map(|len| (number, vec![7; len])), "{name}: {edition}, {method:?}, {script:?}");
            }
        }
    }
}
