//! The chip's bit map, written off the slave receiver's table of the data sheet (source document
//! 000, Table 31), and what follows from it: which bits of a place are named, and where the bits of
//! a field lie.

use std::sync::OnceLock;

/// A place, and its eight cells from D7 to D0; a dash is a cell without a name. In 92h and 94h the
/// print has 5 and 0 for the S and O of YOFSO. A place that is not listed holds no name; 00h, 1Ch,
/// 80h, FEh and FFh are left out since the customer's rules take them out of the file.
const PRINTED: [(usize, &str); 96] = [
    (0x16, "- - - - DACF3 DACF2 DACF1 DACF0"),
    (0x17, "- - - RDACC4 RDACC3 RDACC2 RDACC1 RDACC0"),
    (0x18, "- - - GDACC4 GDACC3 GDACC2 GDACC1 GDACC0"),
    (0x19, "- - - BDACC4 BDACC3 BDACC2 BDACC1 BDACC0"),
    (0x1A, "MSMT7 MSMT6 MSMT5 MSMT4 MSMT3 MSMT2 MSMT1 MSMT0"),
    (0x1B, "MSM - - - - RCOMP GCOMP BCOMP"),
    (0x26, "WSS7 WSS6 WSS5 WSS4 WSS3 WSS2 WSS1 WSS0"),
    (0x27, "WSSON - WSS13 WSS12 WSS11 WSS10 WSS9 WSS8"),
    (0x28, "- - BS5 BS4 BS3 BS2 BS1 BS0"),
    (0x29, "SRES - BE5 BE4 BE3 BE2 BE1 BE0"),
    (0x2A, "CG07 CG06 CG05 CG04 CG03 CG02 CG01 CG00"),
    (0x2B, "CG15 CG14 CG13 CG12 CG11 CG10 CG09 CG08"),
    (0x2C, "CGEN - - - CG19 CG18 CG17 CG16"),
    (0x2D, "VBSEN CVBSEN1 CVBSEN0 CEN ENCOFF CLK2EN - -"),
    (0x38, "- - - GY4 GY3 GY2 GY1 GY0"),
    (0x39, "- - - GCD4 GCD3 GCD2 GCD1 GCD0"),
    (0x3A, "CBENB - - SYMP DEMOFF CSYNC Y2C UV2C"),
    (0x54, "VPSEN - - - - - EDGE2 EDGE1"),
    (0x55, "VPS57 VPS56 VPS55 VPS54 VPS53 VPS52 VPS51 VPS50"),
    (
        0x56,
        "VPS117 VPS116 VPS115 VPS114 VPS113 VPS112 VPS111 VPS110",
    ),
    (
        0x57,
        "VPS127 VPS126 VPS125 VPS124 VPS123 VPS122 VPS121 VPS120",
    ),
    (
        0x58,
        "VPS137 VPS136 VPS135 VPS134 VPS133 VPS132 VPS131 VPS130",
    ),
    (
        0x59,
        "VPS147 VPS146 VPS145 VPS144 VPS143 VPS142 VPS141 VPS140",
    ),
    (0x5A, "CHPS7 CHPS6 CHPS5 CHPS4 CHPS3 CHPS2 CHPS1 CHPS0"),
    (
        0x5B,
        "GAINU7 GAINU6 GAINU5 GAINU4 GAINU3 GAINU2 GAINU1 GAINU0",
    ),
    (
        0x5C,
        "GAINV7 GAINV6 GAINV5 GAINV4 GAINV3 GAINV2 GAINV1 GAINV0",
    ),
    (0x5D, "GAINU8 - BLCKL5 BLCKL4 BLCKL3 BLCKL2 BLCKL1 BLCKL0"),
    (0x5E, "GAINV8 - BLNNL5 BLNNL4 BLNNL3 BLNNL2 BLNNL1 BLNNL0"),
    (
        0x5F,
        "CCRS1 CCRS0 BLNVB5 BLNVB4 BLNVB3 BLNVB2 BLNVB1 BLNVB0",
    ),
    (0x61, "DOWND DOWNA - YGS - SCBW PAL FISE"),
    (0x62, "- BSTA6 BSTA5 BSTA4 BSTA3 BSTA2 BSTA1 BSTA0"),
    (0x63, "FSC07 FSC06 FSC05 FSC04 FSC03 FSC02 FSC01 FSC00"),
    (0x64, "FSC15 FSC14 FSC13 FSC12 FSC11 FSC10 FSC09 FSC08"),
    (0x65, "FSC23 FSC22 FSC21 FSC20 FSC19 FSC18 FSC17 FSC16"),
    (0x66, "FSC31 FSC30 FSC29 FSC28 FSC27 FSC26 FSC25 FSC24"),
    (
        0x67,
        "L21O07 L21O06 L21O05 L21O04 L21O03 L21O02 L21O01 L21O00",
    ),
    (
        0x68,
        "L21O17 L21O16 L21O15 L21O14 L21O13 L21O12 L21O11 L21O10",
    ),
    (
        0x69,
        "L21E07 L21E06 L21E05 L21E04 L21E03 L21E02 L21E01 L21E00",
    ),
    (
        0x6A,
        "L21E17 L21E16 L21E15 L21E14 L21E13 L21E12 L21E11 L21E10",
    ),
    (
        0x6C,
        "HTRIG7 HTRIG6 HTRIG5 HTRIG4 HTRIG3 HTRIG2 HTRIG1 HTRIG0",
    ),
    (
        0x6D,
        "HTRIG10 HTRIG9 HTRIG8 VTRIG4 VTRIG3 VTRIG2 VTRIG1 VTRIG0",
    ),
    (0x6E, "- BLCKON PHRES1 PHRES0 LDEL1 LDEL0 FLC1 FLC0"),
    (0x6F, "CCEN1 CCEN0 TTXEN SCCLN4 SCCLN3 SCCLN2 SCCLN1 SCCLN0"),
    (
        0x70,
        "ADWHS7 ADWHS6 ADWHS5 ADWHS4 ADWHS3 ADWHS2 ADWHS1 ADWHS0",
    ),
    (
        0x71,
        "ADWHE7 ADWHE6 ADWHE5 ADWHE4 ADWHE3 ADWHE2 ADWHE1 ADWHE0",
    ),
    (0x72, "- ADWHE10 ADWHE9 ADWHE8 - ADWHS10 ADWHS9 ADWHS8"),
    (
        0x73,
        "TTXHS7 TTXHS6 TTXHS5 TTXHS4 TTXHS3 TTXHS2 TTXHS1 TTXHS0",
    ),
    (0x74, "- - - - TTXHD3 TTXHD2 TTXHD1 TTXHD0"),
    (0x75, "CSYNCA4 CSYNCA3 CSYNCA2 CSYNCA1 CSYNCA0 - - -"),
    (
        0x76,
        "TTXOVS7 TTXOVS6 TTXOVS5 TTXOVS4 TTXOVS3 TTXOVS2 TTXOVS1 TTXOVS0",
    ),
    (
        0x77,
        "TTXOVE7 TTXOVE6 TTXOVE5 TTXOVE4 TTXOVE3 TTXOVE2 TTXOVE1 TTXOVE0",
    ),
    (
        0x78,
        "TTXEVS7 TTXEVS6 TTXEVS5 TTXEVS4 TTXEVS3 TTXEVS2 TTXEVS1 TTXEVS0",
    ),
    (
        0x79,
        "TTXEVE7 TTXEVE6 TTXEVE5 TTXEVE4 TTXEVE3 TTXEVE2 TTXEVE1 TTXEVE0",
    ),
    (0x7A, "FAL7 FAL6 FAL5 FAL4 FAL3 FAL2 FAL1 FAL0"),
    (0x7B, "LAL7 LAL6 LAL5 LAL4 LAL3 LAL2 LAL1 LAL0"),
    (0x7C, "TTX60 LAL8 - FAL8 TTXEVE8 TTXOVE8 TTXEVS8 TTXOV8"),
    (0x7E, "LINE12 LINE11 LINE10 LINE9 LINE8 LINE7 LINE6 LINE5"),
    (
        0x7F,
        "LINE20 LINE19 LINE18 LINE17 LINE16 LINE15 LINE14 LINE13",
    ),
    (0x81, "PCL07 PCL06 PCL05 PCL04 PCL03 PCL02 PCL01 PCL00"),
    (0x82, "PCL15 PCL14 PCL13 PCL12 PCL11 PCL10 PCL09 PCL08"),
    (0x83, "PCL23 PCL22 PCL21 PCL20 PCL19 PCL18 PCL17 PCL16"),
    (0x90, "XOFS7 XOFS6 XOFS5 XOFS4 XOFS3 XOFS2 XOFS1 XOFS0"),
    (0x91, "XPIX7 XPIX6 XPIX5 XPIX4 XPIX3 XPIX2 XPIX1 XPIX0"),
    (
        0x92,
        "YOFSO7 YOFSO6 YOFSO5 YOFSO4 YOFSO3 YOFSO2 YOFSO1 YOFSO0",
    ),
    (
        0x93,
        "YOFSE7 YOFSE6 YOFSE5 YOFSE4 YOFSE3 YOFSE2 YOFSE1 YOFSE0",
    ),
    (0x94, "YOFSE9 YOFSE8 YOFSO9 YOFSO8 XPIX9 XPIX8 XOFS9 XOFS8"),
    (0x95, "YPIX7 YPIX6 YPIX5 YPIX4 YPIX3 YPIX2 YPIX1 YPIX0"),
    (0x96, "EFS PCBN SLAVE ILC YFIL HSL YPIX9 YPIX8"),
    (0x97, "HFS VFS OFS PFS OVS PVS OHS PHS"),
    (0x98, "HLEN7 HLEN6 HLEN5 HLEN4 HLEN3 HLEN2 HLEN1 HLEN0"),
    (0x99, "IDEL3 IDEL2 IDEL1 IDEL0 - HLEN10 HLEN9 HLEN8"),
    (0x9A, "XINC7 XINC6 XINC5 XINC4 XINC3 XINC2 XINC1 XINC0"),
    (0x9B, "YINC7 YINC6 YINC5 YINC4 YINC3 YINC2 YINC1 YINC0"),
    (0x9C, "YINC11 YINC10 YINC9 YINC8 XINC11 XINC10 XINC9 XINC8"),
    (
        0x9D,
        "YIWGTO7 YIWGTO6 YIWGTO5 YIWGTO4 YIWGTO3 YIWGTO2 YIWGTO1 YIWGTO0",
    ),
    (
        0x9E,
        "YIWGTE7 YIWGTE6 YIWGTE5 YIWGTE4 YIWGTE3 YIWGTE2 YIWGTE1 YIWGTE0",
    ),
    (
        0x9F,
        "YIWGTE11 YIWGTE10 YIWGTE9 YIWGTE8 YIWGTO11 YIWGTO10 YIWGTO9 YIWGTO8",
    ),
    (
        0xA0,
        "YSKIP7 YSKIP6 YSKIP5 YSKIP4 YSKIP3 YSKIP2 YSKIP1 YSKIP0",
    ),
    (0xA1, "BLEN - - - YSKIP11 YSKIP10 YSKIP9 YSKIP8"),
    (0xA2, "BCY7 BCY6 BCY5 BCY4 BCY3 BCY2 BCY1 BCY0"),
    (0xA3, "BCU7 BCU6 BCU5 BCU4 BCU3 BCU2 BCU1 BCU0"),
    (0xA4, "BCV7 BCV6 BCV5 BCV4 BCV3 BCV2 BCV1 BCV0"),
    (0xF0, "CC1R7 CC1R6 CC1R5 CC1R4 CC1R3 CC1R2 CC1R1 CC1R0"),
    (0xF1, "CC1G7 CC1G6 CC1G5 CC1G4 CC1G3 CC1G2 CC1G1 CC1G0"),
    (0xF2, "CC1B7 CC1B6 CC1B5 CC1B4 CC1B3 CC1B2 CC1B1 CC1B0"),
    (0xF3, "CC2R7 CC2R6 CC2R5 CC2R4 CC2R3 CC2R2 CC2R1 CC2R0"),
    (0xF4, "CC2G7 CC2G6 CC2G5 CC2G4 CC2G3 CC2G2 CC2G1 CC2G0"),
    (0xF5, "CC2B7 CC2B6 CC2B5 CC2B4 CC2B3 CC2B2 CC2B1 CC2B0"),
    (0xF6, "AUXR7 AUXR6 AUXR5 AUXR4 AUXR3 AUXR2 AUXR1 AUXR0"),
    (0xF7, "AUXG7 AUXG6 AUXG5 AUXG4 AUXG3 AUXG2 AUXG1 AUXG0"),
    (0xF8, "AUXB7 AUXB6 AUXB5 AUXB4 AUXB3 AUXB2 AUXB1 AUXB0"),
    (0xF9, "XCP7 XCP6 XCP5 XCP4 XCP3 XCP2 XCP1 XCP0"),
    (0xFA, "XHS4 XHS3 XHS2 XHS1 XHS0 XCP10 XCP9 XCP8"),
    (0xFB, "YCP7 YCP6 YCP5 YCP4 YCP3 YCP2 YCP1 YCP0"),
    (0xFC, "YHS4 YHS3 YHS2 YHS1 YHS0 - YCP9 YCP8"),
    (0xFD, "LUTOFF CMODE LUTL IF2 IF1 IF0 MATOFF DFOFF"),
];

/// The caption bytes, which a list of writes may not touch.
pub const CAPTIONS: [usize; 4] = [0x67, 0x68, 0x69, 0x6A];

/// Where the registers end that a bus write reaches: FEh and FFh lead to the cursor map and the colour
/// table.
pub const REGISTERS_END: usize = 0xFE;

/// The named bits of a place.
pub fn mask(place: usize) -> u8 {
    static MASKS: OnceLock<[u8; 256]> = OnceLock::new();
    MASKS.get_or_init(all_masks)[place]
}

fn all_masks() -> [u8; 256] {
    let mut masks = [0; 256];
    for (place, cells) in PRINTED {
        for (column, cell) in cells.split(' ').enumerate() {
            if cell != "-" {
                masks[place] |= 0x80 >> column;
            }
        }
    }
    masks
}

/// Where the bits of a field lie, from its bit 0 up: the place, and the bit in it. They are found by
/// the names in the map.
pub fn bits_of(field: &str) -> Vec<(usize, u32)> {
    let mut found = Vec::new();
    for (place, cells) in PRINTED {
        for (column, cell) in (0..).zip(cells.split(' ')) {
            if let Some(number) = bit_number(field, cell) {
                found.push((number, (place, 7 - column)));
            }
        }
    }
    found.sort_unstable();
    found.into_iter().map(|(_, bit)| bit).collect()
}

/// Which bit of the field a cell is: a field of one bit is printed without a number.
fn bit_number(field: &str, cell: &str) -> Option<u32> {
    match cell.strip_prefix(field)? {
        "" => Some(0),
        digits => digits.parse().ok(),
    }
}

#[cfg(test)]
mod tests {
    use super::*;

    #[test]
    fn each_place_has_eight_cells_and_stands_once() {
        for (index, (place, cells)) in PRINTED.iter().enumerate() {
            assert_eq!(cells.split(' ').count(), 8, "place {place:02x}");
            assert!(
                index == 0 || PRINTED[index - 1].0 < *place,
                "place {place:02x}"
            );
        }
    }

    #[test]
    fn places_outside_of_the_file_have_no_named_bit() {
        for place in [0x00, 0x1C, 0x80, 0xFE, 0xFF] {
            assert_eq!(mask(place), 0, "place {place:02x}");
        }
    }

    #[test]
    fn places_with_some_bits_unused() {
        let some = [
            (0x16, 0x0F),
            (0x1B, 0x87),
            (0x2D, 0xFC),
            (0x61, 0xD7),
            (0x72, 0x77),
            (0x7C, 0xDF),
            (0x99, 0xF7),
            (0xA1, 0x8F),
            (0xFC, 0xFB),
        ];
        for (place, named) in some {
            assert_eq!(mask(place), named, "place {place:02x}");
        }
    }

    #[test]
    fn fields_lie_where_the_customers_table_has_them() {
        assert_eq!(bits_of("FISE"), [(0x61, 0)]);
        assert_eq!(bits_of("FAL")[8], (0x7C, 4));
        assert_eq!(bits_of("LAL")[8], (0x7C, 6));
        assert_eq!(bits_of("PCL")[16], (0x83, 0));
        assert_eq!(bits_of("YOFSO")[8..], [(0x94, 4), (0x94, 5)]);
        assert_eq!(bits_of("YIWGTE")[11], (0x9F, 7));
        // The one difference: the customer's table has a fourth high bit, the map does not.
        assert_eq!(bits_of("HLEN")[8..], [(0x99, 0), (0x99, 1), (0x99, 2)]);
    }
}
