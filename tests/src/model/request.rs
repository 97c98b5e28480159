//! A wanted picture, and its 18 bytes.

use crate::library::REQUEST_BYTES;

/// The numbers are wide, so that none of the paper's sums and products can go wrong in them.
#[derive(Clone, Copy, Debug, Default, PartialEq, Eq)]
pub struct Request {
    pub standard: i128,
    pub in_pix: i128,
    pub in_lin: i128,
    pub in_ppl: i128,
    pub out_pix: i128,
    pub out_lin: i128,
    pub y_skip: i128,
    pub x_ofs: i128,
    pub y_ofso: i128,
    pub offset: i128,
}

impl Request {
    /// The request in 18 bytes, or nothing where the length is another.
    pub fn from_bytes(bytes: &[u8]) -> Option<Request> {
        if bytes.len() != REQUEST_BYTES {
            return None;
        }
        let pair = |place: usize| i128::from(bytes[place]) + 256 * i128::from(bytes[place + 1]);
        let last = i128::from(bytes[17]);
        Some(Request {
            standard: i128::from(bytes[0]),
            in_pix: pair(1),
            in_lin: pair(3),
            in_ppl: pair(5),
            out_pix: pair(7),
            out_lin: pair(9),
            y_skip: pair(11),
            x_ofs: pair(13),
            y_ofso: pair(15),
            offset: if last < 128 { last } else { last - 256 },
        })
    }

    pub fn to_bytes(&self) -> [u8; REQUEST_BYTES] {
        let mut bytes = [0; REQUEST_BYTES];
        bytes[0] = u8::try_from(self.standard).expect("a byte");
        for (index, number) in self.pairs().into_iter().enumerate() {
            let number = u16::try_from(number).expect("16 bits");
            bytes[1 + 2 * index] = (number % 256) as u8;
            bytes[2 + 2 * index] = (number / 256) as u8;
        }
        let offset = i8::try_from(self.offset).expect("a signed byte");
        bytes[17] = offset as u8;
        bytes
    }

    /// The numbers of 16 bits, in the order of a session's record.
    fn pairs(&self) -> [i128; 8] {
        [
            self.in_pix,
            self.in_lin,
            self.in_ppl,
            self.out_pix,
            self.out_lin,
            self.y_skip,
            self.x_ofs,
            self.y_ofso,
        ]
    }
}

#[cfg(test)]
mod tests {
    use super::*;

    #[test]
    fn bytes_and_back() {
        let bytes: Vec<u8> = (200..218).collect();
        let request = Request::from_bytes(&bytes).unwrap();
        assert_eq!(request.in_pix, 201 + 256 * 202);
        assert_eq!(request.offset, 217 - 256);
        assert_eq!(request.to_bytes()[..], bytes[..]);
    }
}
