//! How many noisy frames come out wrong, by frame decode and by lists: figures over frames from a fixed seed, no claim.
use std::process::ExitCode;

use crate::frame::bit_of;
use crate::library::{frame_decode, frame_encode, information_mask, list_decode, Plan};
use crate::list::with_checksum;
use crate::random::Random;

/// Two layers, kernel 2 in both.
const PLAN: Plan = Plan {
    layers: 2,
    kernels: [2, 2, 0],
};

/// The bytes of a payload, two of them the checksum: k = 128.
const PAYLOAD: usize = 16;

/// How many frames there are of each noise.
const FRAMES: usize = 400;

/// A sent bit gives 32 or -32 and four numbers from minus this to this, limited to the range of values.
const NOISES: [i16; 5] = [18, 20, 22, 24, 26];

const LISTS: [usize; 4] = [1, 2, 4, 8];

/// The frames that came out wrong.
#[derive(Clone, Copy, Default)]
struct Wrong {
    /// No final path's checksum agreed.
    refused: usize,
    /// Another payload than the one sent.
    other: usize,
}

/// A payload with its checksum, and the values of its word with noise.
fn frame(random: &mut Random, mask: &[u8], noise: i16) -> (Vec<u8>, Vec<i8>) {
    let payload: Vec<u8> = (0..PAYLOAD).map(|_| random.word() as u8).collect();
    let payload = with_checksum(&payload);
    let mut word = [0; 32];
    frame_encode(PLAN, mask, &payload, &mut word);
    let values = (0..256)
        .map(|i| {
            let sent = if bit_of(&word, i) { -32 } else { 32 };
            let noise: i16 = (0..4).map(|_| random.between(-noise, noise)).sum();
            (sent + noise).clamp(-127, 127) as i8
        })
        .collect();
    (payload, values)
}

/// Whether frame decode gives another payload.
fn decoded_wrong(mask: &[u8], values: &[i8], sent: &[u8]) -> bool {
    let (mut scores, mut penalties) = ([0; 256], [0; 256]);
    let mut payload = [0; PAYLOAD];
    frame_decode(
        PLAN,
        values,
        mask,
        &mut scores,
        &mut penalties,
        &mut payload,
    );
    payload != sent
}

/// One line for each noise: the frames that came out wrong.
pub fn count() -> ExitCode {
    let mut random = Random::new(12);
    let mut mask = [0; 32];
    information_mask(PAYLOAD, &mut mask);
    let mut scratch = vec![0; 8192];
    println!(
        "wrong of {FRAMES} frames, two layers of kernel 2, k = {}; of lists: refused by 13 + another payload",
        8 * PAYLOAD
    );
    println!("noise  frame decode   list 1   list 2   list 4   list 8");
    for noise in NOISES {
        let mut single = 0;
        let mut lists = [Wrong::default(); LISTS.len()];
        for _ in 0..FRAMES {
            let (sent, values) = frame(&mut random, &mask, noise);
            single += usize::from(decoded_wrong(&mask, &values, &sent));
            for (wrong, list) in lists.iter_mut().zip(LISTS) {
                let mut payload = [0; PAYLOAD];
                let outcome = list_decode(PLAN, list, &values, &mask, &mut scratch, &mut payload);
                match outcome.number {
                    0 => wrong.other += usize::from(payload[..] != sent[..]),
                    13 => wrong.refused += 1,
                    other => panic!("list decode answered {other}"),
                }
            }
        }
        let lists =
            lists.map(|wrong| format!("{:>9}", format!("{}+{}", wrong.refused, wrong.other)));
        println!("{noise:5} {single:13}{}", lists.concat());
    }
    ExitCode::SUCCESS
}
