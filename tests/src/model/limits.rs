//! Which requests are accepted, and under which number the others are refused.

use super::fields;
use super::lowest;
use super::request::Request;
use super::scaler::{self, Standard};

/// The reply to a request: every broken limit is looked for, and the lowest number is given. A limit
/// whose quantities are not defined for the request (an unknown standard, no line at all) is not
/// asked; a lower number answers there.
pub fn reply(request: &Request) -> u32 {
    let mut replies = vec![(4, source_is_wrong(request))];
    if let Some(standard) = scaler::standard(request.standard) {
        replies.push((5, output_limit_is_broken(standard, request)));
        if request.out_lin > 0 {
            replies.push((7, clock_is_too_fast(standard, request)));
        }
    }
    replies.push((6, number_is_too_large(request)));
    replies.push((8, weight_is_wrong(request)));
    lowest(&replies)
}

fn source_is_wrong(request: &Request) -> bool {
    let keeps = scaler::standard(request.standard).is_some()
        && request.in_pix % 2 == 0
        && (2..=800).contains(&request.in_pix)
        && (1..=600).contains(&request.in_lin)
        && request.x_ofs + request.in_pix <= request.in_ppl;
    !keeps
}

fn output_limit_is_broken(standard: &Standard, request: &Request) -> bool {
    let keeps = (1..=standard.widest).contains(&request.out_pix)
        && request.out_pix <= request.in_pix
        && 2 * request.out_pix >= request.in_pix
        && (1..=standard.tallest).contains(&request.out_lin)
        && 4 * request.out_lin >= request.in_lin + 2
        && (-8..=8).contains(&request.offset);
    !keeps
}

fn number_is_too_large(request: &Request) -> bool {
    let numbers = [
        ("XOFS", request.x_ofs),
        ("YOFSO", request.y_ofso),
        ("YOFSE", scaler::yofse(request)),
        ("HLEN", request.in_ppl - 1),
        ("YSKIP", request.y_skip),
        ("YINC", scaler::yinc(request)),
    ];
    numbers
        .iter()
        .any(|(field, number)| *number > fields::largest(field))
}

fn clock_is_too_fast(standard: &Standard, request: &Request) -> bool {
    let lines = standard.source_lines(request.in_lin, request.out_lin);
    3 * request.in_ppl * lines > 5 * standard.f
}

fn weight_is_wrong(request: &Request) -> bool {
    let (odd, even) = scaler::weights(request);
    !(0..=4095).contains(&odd) || !(0..=4095).contains(&even)
}
