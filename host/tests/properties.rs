//! What the rules promise of the calls together, tried on the archive alone.
use oyinkafubo_host::answers::{Places, CUT, WHOLE};
use oyinkafubo_host::calls::{Archive, Calls};
use oyinkafubo_host::case::{Call, Case};
use oyinkafubo_host::generate;
use oyinkafubo_host::random::Random;

fn parts(bytes: &[u8], places: Places) -> (&[u8], &[u8]) {
    let part = |start: u64, len: u64| &bytes[start as usize..(start + len) as usize];
    (part(places.block_start, places.block_len), part(places.body_start, places.body_len))
}

/// The SCGI bytes of a block and a body.
fn written(block: &[u8], body: &[u8]) -> Result<Vec<u8>, u8> {
    let mut out = vec![0; block.len() + body.len() + 10];
    let written = Archive.write(block, body, &mut out)?;
    out.truncate(written.bytes as usize);
    Ok(out)
}

#[test]
fn write_then_read() {
    let mut random = Random::seeded("write then read");
    let mut accepted = 0;
    while accepted < 5_000 {
        let inputs = generate::case(&mut random, Call::Write).inputs;
        let (block, body) = (&inputs[0][..], &inputs[1][..]);
        let Ok(bytes) = written(block, body) else {
            continue;
        };
        let places = Archive.read(&bytes).expect("what was written is read");
        assert_eq!(places.used as usize, bytes.len());
        assert_eq!(parts(&bytes, places), (block, body));
        accepted += 1;
    }
}

#[test]
fn read_then_write() {
    let mut random = Random::seeded("read then write");
    let mut accepted = 0;
    while accepted < 5_000 {
        let bytes = generate::scgi::read_input(&mut random);
        let Ok(places) = Archive.read(&bytes) else {
            continue;
        };
        let (block, body) = parts(&bytes, places);
        let again = written(block, body).expect("what was read is written");
        assert_eq!(again, &bytes[..places.used as usize]);
        accepted += 1;
    }
}

/// More bytes change no answer but 1.
#[test]
fn more_bytes_after_a_request() {
    let mut random = Random::seeded("more bytes");
    for _ in 0..20_000 {
        let bytes = generate::scgi::read_input(&mut random);
        let given = Archive.read(&bytes);
        if given == Err(1) {
            continue;
        }
        let len = random.small();
        let more = [bytes, random.bytes(len)].concat();
        assert_eq!(Archive.read(&more), given, "{}", Case::new(Call::Read, vec![more], 0).line());
    }
}

/// A spool cut anywhere gives the requests that lie whole before the cut, and is cut exactly where bytes are left over.
#[test]
fn a_spool_cut_anywhere() {
    let mut random = Random::seeded("spool cut");
    for _ in 0..200 {
        let count = 1 + random.small();
        let requests: Vec<Vec<u8>> = (0..count).map(|_| generate::scgi::request(&mut random)).collect();
        let joined = requests.concat();
        if joined.len() > 5_000 {
            continue;
        }
        for cut in 0..=joined.len() {
            let (whole, left) = whole_before(&requests, cut);
            let mut lengths = vec![0; count];
            let end = Archive.spool(&joined[..cut], &mut lengths).expect("a spool has an ending");
            let stored = end.stored as usize;
            assert_eq!(&lengths[..stored], &whole[..]);
            assert_eq!((end.ending, end.number), (if left == 0 { WHOLE } else { CUT }, 0));
        }
    }
}

/// The lengths of the requests that lie whole before the cut, and the bytes left over.
fn whole_before(requests: &[Vec<u8>], cut: usize) -> (Vec<u64>, usize) {
    let mut left = cut;
    let mut lengths = Vec::new();
    for request in requests {
        if request.len() > left {
            break;
        }
        left -= request.len();
        lengths.push(request.len() as u64);
    }
    (lengths, left)
}

mod gateway {
    use super::{parts, whole_before};
    use oyinkafubo_host::calls::{Archive, Blocks, Calls};
    use oyinkafubo_host::generate::{draft, http, lent, related};
    use oyinkafubo_host::meaning::meaning;
    use oyinkafubo_host::random::Random;
    use oyinkafubo_host::refusal::MAX_BODY;
    use std::ops::Range;

    /// The SCGI bytes of the request at the start, the pool's place, and the bytes used.
    fn forward(lent: &[Vec<u8>], bytes: &[u8]) -> Result<(Vec<u8>, Range<usize>, usize), u8> {
        let blocks = Blocks { facts: &lent[0], site: &lent[1], mounts: &lent[2] };
        let mut out = vec![0; bytes.len() + 20_000];
        let given = Archive.forward(blocks, bytes, &mut out)?;
        out.truncate(given.written as usize);
        let start = given.pool_start as usize;
        Ok((out, start..start + given.pool_len as usize, given.used as usize))
    }

    /// Requests that are accepted under the blocks, without bytes behind them.
    fn accepted(random: &mut Random, lent: &lent::Lent, count: usize) -> Vec<Vec<u8>> {
        let blocks = lent.blocks();
        let tried = (0..1_000).map(|_| draft::good(random, &lent.mounts).bytes());
        let requests: Vec<_> = tried.filter(|bytes| bytes.len() < 800 && forward(&blocks, bytes).is_ok()).take(count).collect();
        assert_eq!(requests.len(), count, "good requests that are accepted");
        requests
    }

    /// What the step writes is one whole request for the reader, with the body of the HTTP request.
    #[test]
    fn the_reader_takes_what_the_step_writes() {
        let mut random = Random::seeded("step then read");
        for _ in 0..5_000 {
            let lent = lent::good(&mut random);
            let request = &accepted(&mut random, &lent, 1)[0];
            let (bytes, _, used) = forward(&lent.blocks(), request).expect("accepted");
            let places = Archive.read(&bytes).expect("what the step writes is read");
            let (block, body) = parts(&bytes, places);
            let meaning = meaning(&request[..used]);
            assert_eq!((places.used as usize, body), (bytes.len(), &meaning.body[..]));
            let uri = Archive.find(block, b"REQUEST_URI").expect("a block");
            assert_eq!(&block[uri.start as usize..(uri.start + uri.len) as usize], &meaning.target[..]);
        }
    }

    /// Requests end to end are taken one by one; a cut anywhere leaves exactly the whole ones, and 1 for what is left over.
    #[test]
    fn pipelined_requests_cut_anywhere() {
        let mut random = Random::seeded("pipelined");
        for _ in 0..100 {
            let lent = lent::good(&mut random);
            let blocks = lent.blocks();
            let count = 1 + random.below(4);
            let requests = accepted(&mut random, &lent, count);
            let alone: Vec<_> = requests.iter().map(|request| forward(&blocks, request)).collect();
            let joined = requests.concat();
            for cut in 0..=joined.len() {
                let (whole, left) = whole_before(&requests, cut);
                let mut rest = &joined[..cut];
                for given in &alone[..whole.len()] {
                    let forwarded = forward(&blocks, rest);
                    assert_eq!(&forwarded, given);
                    rest = &rest[forwarded.map_or(0, |(_, _, used)| used)..];
                }
                assert_eq!(rest.len(), left);
                assert_eq!(forward(&blocks, rest), Err(1));
            }
        }
    }

    /// More bytes change no answer but 1.
    #[test]
    fn more_bytes_after_a_request() {
        let mut random = Random::seeded("more bytes of http");
        for _ in 0..10_000 {
            let lent = lent::good(&mut random);
            let bytes = http::http_input(&mut random, &lent.mounts);
            let given = forward(&lent.blocks(), &bytes);
            if given != Err(1) {
                let len = random.small();
                let more = [bytes, random.bytes(len)].concat();
                assert_eq!(forward(&lent.blocks(), &more), given);
            }
        }
    }

    /// The mount whose pool starts at this place of the block.
    fn mount_at<'l>(lent: &'l lent::Lent, mounts: &[u8], start: usize) -> &'l lent::Mount {
        &lent.mounts[mounts[..start].iter().filter(|&&byte| byte == 0).count() / 2]
    }

    /// A limit gives 9 for a body above it, also before it is there, and changes nothing else: neither bytes nor pool nor refusal.
    #[test]
    fn with_limits_and_without() {
        let mut random = Random::seeded("limits");
        let mut seen = [0; 3];
        for _ in 0..40_000 {
            let lent = lent::good(&mut random);
            let blocks = lent.blocks();
            let mut free = blocks.clone();
            free[2] = lent::without_limits(&blocks[2]);
            let bytes = http::http_input(&mut random, &lent.mounts);
            let given = forward(&blocks, &bytes);
            match forward(&free, &bytes) {
                Ok((out, pool, used)) => {
                    let mount = mount_at(&lent, &free[2], pool.start);
                    if meaning(&bytes[..used]).body.len() > mount.limit {
                        assert_eq!(given, Err(9));
                        seen[0] += 1;
                    } else {
                        let (same, pool, same_used) = given.expect("accepted");
                        assert_eq!((same, &blocks[2][pool], same_used), (out, &mount.pool[..], used));
                        seen[1] += usize::from(mount.limit < MAX_BODY);
                    }
                }
                Err(1) if given == Err(9) => seen[2] += 1,
                refused => assert_eq!(given, refused),
            }
        }
        println!("limits: 9 for {}, accepted under one {}, 9 without the body {}", seen[0], seen[1], seen[2]);
        assert!(seen.iter().all(|&requests| requests > 50), "requests: {seen:?}");
    }

    /// How many Cookie lines a request has.
    fn cookies(request: &[u8]) -> usize {
        request.split(|&byte| byte == b'\n').filter(|line| line.to_ascii_lowercase().starts_with(b"cookie:")).count()
    }

    /// Two accepted requests give equal bytes exactly when they have equal meanings.
    #[test]
    fn equal_bytes_exactly_when_equal_meanings() {
        let mut random = Random::seeded("meanings");
        let mut seen = [0; 2];
        let mut of_cookies = [0; 2];
        let mut at_limit = [0; 2];
        for _ in 0..40_000 {
            let lent = lent::good(&mut random);
            let blocks = lent.blocks();
            let request = draft::good(&mut random, &lent.mounts);
            let (one, two) = (request.bytes(), related::related(&mut random, &request).bytes());
            let (Ok(first), Ok(second)) = (forward(&blocks, &one), forward(&blocks, &two)) else {
                continue;
            };
            let equal = meaning(&one[..first.2]) == meaning(&two[..second.2]);
            assert_eq!(first.0 == second.0, equal, "{:?}\n{:?}", String::from_utf8_lossy(&one), String::from_utf8_lossy(&two));
            seen[usize::from(equal)] += 1;
            of_cookies[usize::from(equal)] += usize::from(cookies(&one) != cookies(&two));
            let limit = mount_at(&lent, &blocks[2], first.1.start).limit;
            at_limit[usize::from(equal)] += usize::from(limit > 0 && limit == request.body.len());
        }
        println!("meanings: {} pairs differ, {} are equal; with other numbers of Cookie lines {of_cookies:?}", seen[0], seen[1]);
        println!("meanings: with a body as long as the limit {at_limit:?}");
        assert!(seen.iter().all(|&pairs| pairs > 3_000), "pairs: {seen:?}");
        assert!(of_cookies.iter().all(|&pairs| pairs > 50), "pairs with unequal numbers of Cookie lines: {of_cookies:?}");
        assert!(at_limit.iter().all(|&pairs| pairs > 500), "pairs at a limit: {at_limit:?}");
    }
}

/// 02 §9: the draft edition accepts exactly what the RFC edition accepts without a Location or with GET or HEAD, with the same answer.
mod editions {
    use oyinkafubo_host::answers::{DOCUMENT, DRAFT_1996, RFC_3875};
    use oyinkafubo_host::calls::{Archive, Calls};
    use oyinkafubo_host::case::Case;
    use oyinkafubo_host::generate::response;
    use oyinkafubo_host::random::Random;

    /// An answer has a Location exactly where its action is not a document. What the RFC edition refuses, the draft refuses with the same
    /// number, and what it refuses alone is 25.
    #[test]
    fn the_draft_beside_the_rfc() {
        let mut random = Random::seeded("editions");
        let mut seen = [0; 5];
        for _ in 0..60_000 {
            let (method, script) = (response::method(&mut random), response::script(&mut random));
            let rfc = Archive.response(RFC_3875, &method, &script);
            let (kind, expected) = match rfc {
                Err(24) => (0, rfc),
                Err(_) => (1, rfc),
                Ok(answer) if answer.action == DOCUMENT => (2, rfc),
                Ok(_) if method == b"GET" || method == b"HEAD" => (3, rfc),
                Ok(_) => (4, Err(25)),
            };
            let draft = Archive.response(DRAFT_1996, &method, &script);
            assert_eq!(draft, expected, "{}", Case::response(DRAFT_1996, &method, script).line());
            seen[kind] += 1;
        }
        println!("editions: 24, 25, documents, a Location with GET or HEAD, a Location with another method: {seen:?}");
        assert!(seen.iter().all(|&outputs| outputs > 1_000), "outputs: {seen:?}");
    }

    /// What the RFC edition gives does not depend on the method.
    #[test]
    fn two_methods_under_the_rfc() {
        let mut random = Random::seeded("two methods");
        let mut seen = [0; 2];
        for _ in 0..20_000 {
            let script = response::script(&mut random);
            let [one, two] = [(); 2].map(|_| response::method(&mut random));
            let given = Archive.response(RFC_3875, &one, &script);
            assert_eq!(Archive.response(RFC_3875, &two, &script), given, "{}", Case::response(RFC_3875, &two, script).line());
            seen[usize::from(given.is_ok())] += usize::from(one != two);
        }
        assert!(seen.iter().all(|&outputs| outputs > 1_000), "outputs: {seen:?}");
    }
}
