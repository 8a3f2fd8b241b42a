//! What the header says under "How to write the loop", tried on the archive alone.
use oyinkafubo_host::answers::{DRAFT_1996, RFC_3875};
use oyinkafubo_host::calls::{Archive, Blocks, Calls};
use oyinkafubo_host::generate::{http, lent, response};
use oyinkafubo_host::random::Random;
use oyinkafubo_host::refusal::*;

/// 0 or the refusal; `out` has room for every request here.
fn code(blocks: &[Vec<u8>], bytes: &[u8], out: &mut [u8]) -> Refusal {
    let blocks = Blocks { facts: &blocks[0], site: &blocks[1], mounts: &blocks[2] };
    Archive.forward(blocks, bytes, out).err().unwrap_or(0)
}

/// Without a byte of HTTP: 20 exactly where the blocks give 20 for every request, else 1.
#[test]
fn a_check_at_the_start() {
    let mut random = Random::seeded("start");
    let mut out = vec![0; 2_000_000];
    let mut seen = [0; 2];
    for _ in 0..20_000 {
        let good = lent::good(&mut random);
        let blocks = match random.below(3) {
            0 => lent::at_limit(&mut random, good.clone()).blocks(),
            1 => lent::breach(&mut random, good.clone()),
            _ => good.blocks(),
        };
        let start = code(&blocks, b"", &mut out);
        let given = code(&blocks, &http::http_input(&mut random, &good.mounts), &mut out);
        assert_eq!(start, if given == LENT { LENT } else { CUT });
        seen[usize::from(given == LENT)] += 1;
    }
    assert!(seen.iter().all(|&blocks| blocks > 3_000), "blocks: {seen:?}");
}

/// 1 with the whole head there: whatever the body, no refusal follows. A refusal with the whole head there is that of the whole request.
#[test]
fn a_head_that_is_complete() {
    let mut random = Random::seeded("complete heads");
    let mut out = vec![0; 2_000_000];
    let mut seen = [0; 2];
    for _ in 0..20_000 {
        let lent = lent::good(&mut random);
        let bytes = http::http_input(&mut random, &lent.mounts);
        let Some(end) = bytes.windows(4).position(|four| four == b"\r\n\r\n") else {
            continue;
        };
        let whole = code(&lent.blocks(), &bytes, &mut out);
        let at_head = code(&lent.blocks(), &bytes[..end + 4], &mut out);
        if at_head == CUT {
            let body = vec![b'x'; MAX_BODY];
            let filled = [&bytes[..end + 4], &body].concat();
            assert_eq!(code(&lent.blocks(), &filled, &mut out), 0, "{:?}", String::from_utf8_lossy(&bytes[..end + 4]));
        } else {
            assert_eq!(at_head, whole);
        }
        seen[usize::from(at_head == CUT)] += 1;
    }
    assert!(seen.iter().all(|&heads| heads > 1_000), "heads: {seen:?}");
}

/// With as many bytes as a head and a body can have, the answer is never 1.
#[test]
fn a_full_buffer() {
    let mut random = Random::seeded("full buffers");
    let mut out = vec![0; 2_000_000];
    for _ in 0..2_000 {
        let lent = lent::good(&mut random);
        let mut bytes = http::http_input(&mut random, &lent.mounts);
        bytes.resize(MAX_HEAD + MAX_BODY, b'x');
        assert_ne!(code(&lent.blocks(), &bytes, &mut out), CUT);
    }
}

/// The first 8,193 bytes of a script's output settle everything but the body's length, under both editions and for every method.
#[test]
fn what_settles_a_response() {
    let mut random = Random::seeded("settled responses");
    let mut seen = [[0; 2]; 2];
    for _ in 0..20_000 {
        let mut script = response::script(&mut random);
        let more = random.pick(&[0, 1, MAX_HEAD, 3 * MAX_HEAD]);
        script.resize(script.len() + more, b'\n');
        let first = &script[..script.len().min(MAX_HEAD + 1)];
        let method = response::method(&mut random);
        for edition in [RFC_3875, DRAFT_1996] {
            let mut settled = Archive.response(edition, &method, first);
            if let Ok(action) = &mut settled {
                assert_eq!(action.body_len, first.len() as u64 - action.body_start);
                action.body_len += (script.len() - first.len()) as u64;
            }
            assert_eq!(settled, Archive.response(edition, &method, &script));
            seen[edition as usize][usize::from(settled.is_ok() && first.len() < script.len())] += 1;
        }
    }
    assert!(seen.iter().flatten().all(|&outputs| outputs > 1_000), "outputs: {seen:?}");
}
