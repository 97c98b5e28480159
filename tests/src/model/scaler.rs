//! The numbers of a wanted picture, straight from the paper's formulas.

use super::request::Request;

/// The fields, in the order of the 68 bytes, by their names in the bit map.
pub const NAMES: [&str; 17] = [
    "FISE", "ADWHS", "ADWHE", "FAL", "LAL", "PCL", "XOFS", "XPIX", "YOFSO", "YOFSE", "YPIX",
    "HLEN", "XINC", "YINC", "YIWGTO", "YIWGTE", "YSKIP",
];

/// What differs between the two standards.
pub struct Standard {
    pub fise: i128,
    pub widest: i128,
    pub tallest: i128,
    adwhs_from: i128,
    fal_from: i128,
    lines: i128,
    pub f: i128,
}

const SIXTY: Standard = Standard {
    fise: 1,
    widest: 710,
    tallest: 240,
    adwhs_from: 966,
    fal_from: 19,
    lines: 525,
    f: 450_450,
};

const FIFTY: Standard = Standard {
    fise: 0,
    widest: 702,
    tallest: 287,
    adwhs_from: 986,
    fal_from: 23,
    lines: 625,
    f: 540_000,
};

pub fn standard(number: i128) -> Option<&'static Standard> {
    match number {
        0 => Some(&SIXTY),
        1 => Some(&FIFTY),
        _ => None,
    }
}

/// The quotient rounded down, and up, also of a numerator below 0.
fn down(numerator: i128, divisor: i128) -> i128 {
    assert!(divisor > 0);
    numerator.div_euclid(divisor)
}

fn up(numerator: i128, divisor: i128) -> i128 {
    -down(-numerator, divisor)
}

/// To nearest, half up.
fn nearest(numerator: i128, divisor: i128) -> i128 {
    down(2 * numerator + divisor, 2 * divisor)
}

impl Standard {
    pub fn adwhs(&self, out_pix: i128) -> i128 {
        self.adwhs_from - out_pix
    }

    pub fn fal(&self, out_lin: i128, offset: i128) -> i128 {
        self.fal_from + down(self.tallest - out_lin, 2) + offset
    }

    /// L: lines of the source in a frame.
    pub fn source_lines(&self, in_lin: i128, out_lin: i128) -> i128 {
        down((in_lin + 2) * self.lines, 2 * out_lin)
    }
}

pub fn pcl(standard: &Standard, request: &Request) -> i128 {
    let lines = standard.source_lines(request.in_lin, request.out_lin);
    down(request.in_ppl * lines * (1 << 21), standard.f)
}

/// The number that is written: 4,096 does not fit twelve bits, and 0 stands for it.
pub fn xinc(request: &Request) -> i128 {
    match up(4096 * request.out_pix, request.in_pix) {
        4096 => 0,
        step => step,
    }
}

/// N and D: the vertical step is N/D.
fn step(request: &Request) -> (i128, i128) {
    let numerator = request.out_lin * (4095 + request.y_skip) * 4096;
    let divisor = (request.in_lin + 2) * 4095;
    (numerator, divisor)
}

pub fn yinc(request: &Request) -> i128 {
    let (n, d) = step(request);
    nearest(n, d)
}

/// YIWGTO and YIWGTE.
pub fn weights(request: &Request) -> (i128, i128) {
    let (n, d) = step(request);
    let odd = 2048 + down(n, 2 * d);
    let skipped = request.y_skip * d;
    if even_field_is_later(request) {
        (odd, down(3 * n - skipped, 2 * d))
    } else {
        (odd, down(n - skipped, 2 * d))
    }
}

/// Whether the even field begins one line below the odd one.
pub fn even_field_is_later(request: &Request) -> bool {
    let (n, d) = step(request);
    n < request.y_skip * d
}

pub fn yofse(request: &Request) -> i128 {
    request.y_ofso + i128::from(even_field_is_later(request))
}

/// The numbers of all fields, whether or not they fit, or nothing where a divisor is 0 or the standard
/// unknown.
pub fn numbers(request: &Request) -> Option<[i128; 17]> {
    let standard = standard(request.standard)?;
    if request.in_pix == 0 || request.out_lin == 0 {
        return None;
    }
    let adwhs = standard.adwhs(request.out_pix);
    let fal = standard.fal(request.out_lin, request.offset);
    let (yiwgto, yiwgte) = weights(request);
    Some([
        standard.fise,
        adwhs,
        adwhs + 2 * request.out_pix,
        fal,
        fal + request.out_lin,
        pcl(standard, request),
        request.x_ofs,
        request.in_pix / 2,
        request.y_ofso,
        yofse(request),
        request.in_lin,
        request.in_ppl - 1,
        xinc(request),
        yinc(request),
        yiwgto,
        yiwgte,
        request.y_skip,
    ])
}

#[cfg(test)]
mod tests {
    use super::*;

    #[test]
    fn rounding() {
        assert_eq!((down(7, 2), down(-7, 2), down(8, 2)), (3, -4, 4));
        assert_eq!((up(7, 2), up(8, 2), up(0, 2)), (4, 4, 0));
        assert_eq!((nearest(5, 2), nearest(4, 3), nearest(5, 3)), (3, 1, 2));
    }
}
