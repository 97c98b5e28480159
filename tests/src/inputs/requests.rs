//! Wanted pictures: accepted ones, ones that lie on a limit, and damaged ones.

use crate::library::REQUEST_BYTES;
use crate::model::limits;
use crate::model::request::Request;
use crate::model::scaler::{self, Standard};
use crate::random::Random;

/// Figure 1 of the customer's paper.
pub const FIGURE_1: Request = Request {
    standard: 0,
    in_pix: 640,
    in_lin: 480,
    in_ppl: 800,
    out_pix: 640,
    out_lin: 216,
    y_skip: 0,
    x_ofs: 80,
    y_ofso: 66,
    offset: 0,
};

/// Figure 4: the even field begins a line below the odd one.
pub const FIGURE_4: Request = Request {
    standard: 1,
    in_pix: 800,
    in_lin: 600,
    in_ppl: 1024,
    out_pix: 640,
    out_lin: 255,
    y_skip: 4095,
    x_ofs: 200,
    y_ofso: 89,
    offset: 0,
};

/// A picture that is accepted.
pub fn accepted(random: &mut Random) -> Request {
    loop {
        if let Some(request) = likely(random) {
            if limits::reply(&request) == 0 {
                return request;
            }
        }
    }
}

/// A number between two ends, which are drawn more often than the numbers between them.
fn draw(random: &mut Random, low: i128, high: i128) -> Option<i128> {
    if low > high {
        return None;
    }
    Some(match random.below(10) {
        0 => low,
        1 => high,
        _ => random.between(low, high),
    })
}

/// A picture that is drawn within the limits, as far as one number is bounded by those before it.
fn likely(random: &mut Random) -> Option<Request> {
    let number = random.between(0, 1);
    let standard = scaler::standard(number)?;
    let in_pix = 2 * draw(random, 1, 400)?;
    let out_pix = draw(random, (in_pix + 1) / 2, in_pix.min(standard.widest))?;
    let out_lin = draw(random, 1, standard.tallest)?;
    let in_lin = draw(random, 1.max(out_lin - 2), 600.min(4 * out_lin - 2))?;
    let slack = (in_lin + 2 - out_lin) * 4095 / out_lin;
    let y_skip = draw(random, 0, slack.clamp(0, 4095))?;
    let longest = longest_line(standard, in_lin, out_lin).min(2048);
    let x_ofs = draw(random, 0, 1023.min(longest - in_pix))?;
    Some(Request {
        standard: number,
        in_pix,
        in_lin,
        in_ppl: draw(random, x_ofs + in_pix, longest)?,
        out_pix,
        out_lin,
        y_skip,
        x_ofs,
        y_ofso: draw(random, 0, 1023)?,
        offset: draw(random, -8, 8)?,
    })
}

/// The largest InPpl that keeps the clock limit.
fn longest_line(standard: &Standard, in_lin: i128, out_lin: i128) -> i128 {
    5 * standard.f / (3 * standard.source_lines(in_lin, out_lin))
}

/// The 18 bytes of any request: accepted, on a limit, damaged, or drawn blindly.
pub fn any(random: &mut Random) -> Vec<u8> {
    let mut request = accepted(random);
    match random.below(20) {
        0 => return random.bytes(REQUEST_BYTES),
        1..=6 => {}
        7..=10 => on_a_limit(random, &mut request),
        11..=14 => damage(random, &mut request),
        15 | 16 => {
            damage(random, &mut request);
            damage(random, &mut request);
        }
        _ => return with_bits_flipped(random, &request),
    }
    request.to_bytes().to_vec()
}

fn with_bits_flipped(random: &mut Random, request: &Request) -> Vec<u8> {
    let mut bytes = request.to_bytes().to_vec();
    for _ in 0..1 + random.below(2) {
        let place = random.below(REQUEST_BYTES);
        bytes[place] ^= 1 << random.below(8);
    }
    bytes
}

/// Moves one number to where a limit that hangs on several numbers turns, or just beside it.
fn on_a_limit(random: &mut Random, request: &mut Request) {
    let step = random.between(-1, 1);
    match random.below(8) {
        0..=2 => {
            let standard = scaler::standard(request.standard).expect("an accepted standard");
            let longest = longest_line(standard, request.in_lin, request.out_lin);
            request.in_ppl = (longest + step).clamp(0, 65535);
        }
        3 => request.y_skip = turn_of_skip(request, |it| scaler::yinc(it) > 4095) + step,
        4 => request.y_skip = turn_of_skip(request, scaler::even_field_is_later) + step,
        5 => {
            request.y_skip = turn_of_skip(request, scaler::even_field_is_later) + step;
            request.y_ofso = random.between(1021, 1024);
        }
        6 => request.in_lin = (4 * request.out_lin - 2 + step).max(0),
        _ => request.in_ppl = request.x_ofs + request.in_pix + step,
    }
    request.y_skip = request.y_skip.clamp(0, 65535);
}

/// The lowest YSKIP from which on something holds.
fn turn_of_skip(request: &Request, holds: impl Fn(&Request) -> bool) -> i128 {
    let (mut low, mut high) = (0, 65535);
    while low < high {
        let y_skip = (low + high) / 2;
        if holds(&Request { y_skip, ..*request }) {
            high = y_skip;
        } else {
            low = y_skip + 1;
        }
    }
    low
}

/// Gives one number another value: a step away, at an end of some limit, or any.
fn damage(random: &mut Random, request: &mut Request) {
    const ENDS: [i128; 22] = [
        0, 1, 2, 128, 240, 241, 287, 288, 600, 601, 702, 703, 710, 711, 800, 802, 1023, 1024, 2048,
        2049, 4095, 4097,
    ];
    let wide = [
        &mut request.in_pix,
        &mut request.in_lin,
        &mut request.in_ppl,
        &mut request.out_pix,
        &mut request.out_lin,
        &mut request.y_skip,
        &mut request.x_ofs,
        &mut request.y_ofso,
    ];
    match random.below(10) {
        0 => request.standard = random.pick(&[0, 1, 2, 3, 128, 255]),
        1 => request.offset = random.pick(&[-128, -10, -9, -8, 8, 9, 10, 127]),
        _ => {
            let number = wide.into_iter().nth(random.below(8)).expect("one of eight");
            *number = match random.below(5) {
                0 => random.between(0, 65535),
                1 => random.pick(&ENDS),
                2 => random.pick(&[32767, 32768, 65534, 65535]),
                _ => (*number + random.pick(&[-2, -1, 1, 2])).clamp(0, 65535),
            };
        }
    }
}
