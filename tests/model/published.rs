//! Published boxes, with the figures that were published for them.
//!
//! The tables are those of the standards and papers; the DES boxes are kept as the standard
//! prints them, four rows of sixteen, and brought into the order of their inputs below.
use crate::cast::CAST;

/// A box with what is known of it. `None` where no figure is at hand to compare with.
pub struct Published {
    pub name: String,
    pub n: u32,
    pub m: u32,
    pub rows: Vec<u32>,
    /// This figure, the autocorrelation and the degree are those of the sheet: over all
    /// combinations up to 16 outputs, and over those of at most 4 outputs above.
    pub nonlinearity: Option<u32>,
    pub xor: Option<u32>,
    pub autocorrelation: Option<u32>,
    /// The least degree of a combination.
    pub degree: Option<u32>,
    /// Whether the strict avalanche criterion was claimed for it.
    pub avalanche: bool,
    pub bijective: bool,
}

/// Document 01's example, first printed in document 000.
pub const EXAMPLE: [u32; 8] = [3, 1, 4, 0, 2, 5, 6, 7];

/// The other boxes of document 000, all bijective and with the strict avalanche criterion.
/// The box with three inputs of its Example 2, put together from three columns:
const KIM_3: [u32; 8] = [6, 4, 2, 7, 3, 5, 0, 1];
/// The box with four inputs of its Example 4, and the two with six inputs after it:
const KIM_4: [u32; 16] = [11, 1, 4, 0, 10, 13, 6, 15, 9, 3, 8, 12, 5, 2, 7, 14];
#[rustfmt::skip]
const KIM_6A: [u32; 64] = [
    4, 53, 16, 57, 43, 45, 2, 6, 12, 55, 63, 33, 8, 26, 30, 51,
    37, 20, 41, 0, 61, 59, 22, 18, 39, 28, 49, 47, 10, 24, 35, 14,
    21, 36, 25, 48, 13, 11, 38, 34, 23, 44, 1, 31, 58, 40, 19, 62,
    52, 5, 32, 9, 27, 29, 50, 54, 60, 7, 15, 17, 56, 42, 46, 3,
];
#[rustfmt::skip]
const KIM_6B: [u32; 64] = [
    36, 21, 48, 57, 43, 45, 2, 38, 12, 23, 63, 1, 8, 58, 30, 19,
    37, 20, 9, 0, 29, 27, 22, 50, 39, 60, 49, 15, 10, 56, 35, 46,
    53, 4, 25, 16, 13, 11, 6, 34, 55, 44, 33, 31, 26, 40, 51, 62,
    52, 5, 32, 41, 59, 61, 18, 54, 28, 7, 47, 17, 24, 42, 14, 3,
];

const PRESENT: [u32; 16] = [12, 5, 6, 11, 9, 0, 10, 13, 3, 14, 15, 8, 4, 7, 1, 2];

const SERPENT: [[u32; 16]; 8] = [
    [3, 8, 15, 1, 10, 6, 5, 11, 14, 13, 4, 2, 7, 0, 9, 12],
    [15, 12, 2, 7, 9, 0, 5, 10, 1, 11, 14, 8, 6, 13, 3, 4],
    [8, 6, 7, 9, 3, 12, 10, 15, 13, 1, 14, 4, 0, 11, 5, 2],
    [0, 15, 11, 8, 12, 9, 6, 3, 13, 1, 2, 4, 10, 7, 5, 14],
    [1, 15, 8, 3, 12, 0, 11, 6, 2, 5, 4, 10, 9, 14, 7, 13],
    [15, 5, 2, 11, 4, 10, 9, 12, 0, 3, 14, 8, 13, 6, 7, 1],
    [7, 2, 12, 5, 8, 4, 6, 11, 14, 9, 1, 15, 13, 3, 10, 0],
    [1, 13, 15, 0, 14, 8, 2, 11, 7, 4, 12, 10, 9, 3, 5, 6],
];

/// S1 to S8 as the standard prints them.
#[rustfmt::skip]
const DES: [[u32; 64]; 8] = [
    [
        14, 4, 13, 1, 2, 15, 11, 8, 3, 10, 6, 12, 5, 9, 0, 7,
        0, 15, 7, 4, 14, 2, 13, 1, 10, 6, 12, 11, 9, 5, 3, 8,
        4, 1, 14, 8, 13, 6, 2, 11, 15, 12, 9, 7, 3, 10, 5, 0,
        15, 12, 8, 2, 4, 9, 1, 7, 5, 11, 3, 14, 10, 0, 6, 13,
    ],
    [
        15, 1, 8, 14, 6, 11, 3, 4, 9, 7, 2, 13, 12, 0, 5, 10,
        3, 13, 4, 7, 15, 2, 8, 14, 12, 0, 1, 10, 6, 9, 11, 5,
        0, 14, 7, 11, 10, 4, 13, 1, 5, 8, 12, 6, 9, 3, 2, 15,
        13, 8, 10, 1, 3, 15, 4, 2, 11, 6, 7, 12, 0, 5, 14, 9,
    ],
    [
        10, 0, 9, 14, 6, 3, 15, 5, 1, 13, 12, 7, 11, 4, 2, 8,
        13, 7, 0, 9, 3, 4, 6, 10, 2, 8, 5, 14, 12, 11, 15, 1,
        13, 6, 4, 9, 8, 15, 3, 0, 11, 1, 2, 12, 5, 10, 14, 7,
        1, 10, 13, 0, 6, 9, 8, 7, 4, 15, 14, 3, 11, 5, 2, 12,
    ],
    [
        7, 13, 14, 3, 0, 6, 9, 10, 1, 2, 8, 5, 11, 12, 4, 15,
        13, 8, 11, 5, 6, 15, 0, 3, 4, 7, 2, 12, 1, 10, 14, 9,
        10, 6, 9, 0, 12, 11, 7, 13, 15, 1, 3, 14, 5, 2, 8, 4,
        3, 15, 0, 6, 10, 1, 13, 8, 9, 4, 5, 11, 12, 7, 2, 14,
    ],
    [
        2, 12, 4, 1, 7, 10, 11, 6, 8, 5, 3, 15, 13, 0, 14, 9,
        14, 11, 2, 12, 4, 7, 13, 1, 5, 0, 15, 10, 3, 9, 8, 6,
        4, 2, 1, 11, 10, 13, 7, 8, 15, 9, 12, 5, 6, 3, 0, 14,
        11, 8, 12, 7, 1, 14, 2, 13, 6, 15, 0, 9, 10, 4, 5, 3,
    ],
    [
        12, 1, 10, 15, 9, 2, 6, 8, 0, 13, 3, 4, 14, 7, 5, 11,
        10, 15, 4, 2, 7, 12, 9, 5, 6, 1, 13, 14, 0, 11, 3, 8,
        9, 14, 15, 5, 2, 8, 12, 3, 7, 0, 4, 10, 1, 13, 11, 6,
        4, 3, 2, 12, 9, 5, 15, 10, 11, 14, 1, 7, 6, 0, 8, 13,
    ],
    [
        4, 11, 2, 14, 15, 0, 8, 13, 3, 12, 9, 7, 5, 10, 6, 1,
        13, 0, 11, 7, 4, 9, 1, 10, 14, 3, 5, 12, 2, 15, 8, 6,
        1, 4, 11, 13, 12, 3, 7, 14, 10, 15, 6, 8, 0, 5, 9, 2,
        6, 11, 13, 8, 1, 4, 10, 7, 9, 5, 0, 15, 14, 2, 3, 12,
    ],
    [
        13, 2, 8, 4, 6, 15, 11, 1, 10, 9, 3, 14, 5, 0, 12, 7,
        1, 15, 13, 8, 10, 3, 7, 4, 12, 5, 6, 11, 0, 14, 9, 2,
        7, 11, 4, 1, 9, 12, 14, 2, 0, 6, 10, 13, 15, 3, 5, 8,
        2, 1, 14, 7, 4, 10, 8, 13, 15, 12, 9, 0, 3, 5, 6, 11,
    ],
];

/// The nonlinearity of S1 to S8.
const DES_NONLINEARITY: [u32; 8] = [14, 16, 16, 16, 12, 18, 14, 16];

#[rustfmt::skip]
const AES: [u32; 256] = [
    99, 124, 119, 123, 242, 107, 111, 197, 48, 1, 103, 43, 254, 215, 171, 118,
    202, 130, 201, 125, 250, 89, 71, 240, 173, 212, 162, 175, 156, 164, 114, 192,
    183, 253, 147, 38, 54, 63, 247, 204, 52, 165, 229, 241, 113, 216, 49, 21,
    4, 199, 35, 195, 24, 150, 5, 154, 7, 18, 128, 226, 235, 39, 178, 117,
    9, 131, 44, 26, 27, 110, 90, 160, 82, 59, 214, 179, 41, 227, 47, 132,
    83, 209, 0, 237, 32, 252, 177, 91, 106, 203, 190, 57, 74, 76, 88, 207,
    208, 239, 170, 251, 67, 77, 51, 133, 69, 249, 2, 127, 80, 60, 159, 168,
    81, 163, 64, 143, 146, 157, 56, 245, 188, 182, 218, 33, 16, 255, 243, 210,
    205, 12, 19, 236, 95, 151, 68, 23, 196, 167, 126, 61, 100, 93, 25, 115,
    96, 129, 79, 220, 34, 42, 144, 136, 70, 238, 184, 20, 222, 94, 11, 219,
    224, 50, 58, 10, 73, 6, 36, 92, 194, 211, 172, 98, 145, 149, 228, 121,
    231, 200, 55, 109, 141, 213, 78, 169, 108, 86, 244, 234, 101, 122, 174, 8,
    186, 120, 37, 46, 28, 166, 180, 198, 232, 221, 116, 31, 75, 189, 139, 138,
    112, 62, 181, 102, 72, 3, 246, 14, 97, 53, 87, 185, 134, 193, 29, 158,
    225, 248, 152, 17, 105, 217, 142, 148, 155, 30, 135, 233, 206, 85, 40, 223,
    140, 161, 137, 13, 191, 230, 66, 104, 65, 153, 45, 15, 176, 84, 187, 22,
];

/// A DES box by its six input bits b1 to b6, b1 being the highest: b1 and b6 choose the
/// printed row, the four bits between them the place in it.
fn des_rows(printed: &[u32; 64]) -> Vec<u32> {
    let place = |x: usize| ((x >> 4) & 2 | x & 1) * 16 + (x >> 1 & 15);
    (0..64).map(|x| printed[place(x)]).collect()
}

/// A box of document 000: its inputs and outputs are equally many.
fn kim(name: &str, n: u32, rows: &[u32]) -> Published {
    Published {
        name: name.to_string(),
        n,
        m: n,
        rows: rows.to_vec(),
        nonlinearity: None,
        xor: None,
        autocorrelation: None,
        degree: None,
        avalanche: true,
        bijective: true,
    }
}

fn des(number: usize) -> Published {
    Published {
        name: format!("des-s{number}"),
        n: 6,
        m: 4,
        rows: des_rows(&DES[number - 1]),
        nonlinearity: Some(DES_NONLINEARITY[number - 1]),
        xor: Some(16),
        autocorrelation: None,
        degree: None,
        avalanche: false,
        bijective: false,
    }
}

/// A box of four bits with the best nonlinearity and XOR table there are.
fn four_bits(name: String, rows: &[u32; 16], degree: Option<u32>) -> Published {
    Published {
        name,
        n: 4,
        m: 4,
        rows: rows.to_vec(),
        nonlinearity: Some(4),
        xor: Some(4),
        autocorrelation: None,
        degree,
        avalanche: false,
        bijective: true,
    }
}

fn aes() -> Published {
    Published {
        name: "aes".to_string(),
        n: 8,
        m: 8,
        rows: AES.to_vec(),
        nonlinearity: Some(112),
        xor: Some(4),
        autocorrelation: Some(32),
        // Every combination is the inverse in the field, by an affine change, and has its degree.
        degree: Some(7),
        avalanche: false,
        bijective: true,
    }
}

/// Twice a number in the field of AES.
fn twice(number: u32) -> u32 {
    let doubled = 2 * number;
    if doubled < 256 {
        doubled
    } else {
        doubled ^ 0x11B
    }
}

/// What one byte of AES gives to a column in one round, as tables of it have it: with S the
/// output of the box, the lowest byte of the row is 2·S, the next two are S, the highest is
/// 3·S, multiplied in the field of AES.
fn aes_round_row(s: u32) -> u32 {
    twice(s) + (s << 8) + (s << 16) + ((twice(s) ^ s) << 24)
}

/// The 32 outputs are linear in the eight of the box, and no two of its outputs give the same
/// row, so the XOR table has the same counts. Two outputs together are constant: bit 3 of 2·S
/// is bit 2 of S.
fn aes_round() -> Published {
    Published {
        name: "aes-round".to_string(),
        n: 8,
        m: 32,
        rows: AES.map(aes_round_row).to_vec(),
        nonlinearity: Some(0),
        xor: Some(4),
        autocorrelation: Some(256),
        degree: Some(0),
        avalanche: false,
        bijective: false,
    }
}

/// A box of CAST-128. Document 001 prints of such boxes a largest XOR entry of 2 and DMOSAC 0; its
/// nonlinearity, 74, is over all combinations, and that of the sheet over those of at most 4 outputs.
fn cast(number: usize) -> Published {
    Published {
        name: format!("cast-s{number}"),
        n: 8,
        m: 32,
        rows: CAST[number - 1].to_vec(),
        nonlinearity: None,
        xor: Some(2),
        autocorrelation: None,
        degree: None,
        avalanche: true,
        bijective: false,
    }
}

/// All of them, document 01's example first.
pub fn all() -> Vec<Published> {
    let mut boxes = vec![
        kim("example", 3, &EXAMPLE),
        kim("kim-3", 3, &KIM_3),
        kim("kim-4", 4, &KIM_4),
        kim("kim-6a", 6, &KIM_6A),
        kim("kim-6b", 6, &KIM_6B),
    ];
    boxes.extend((1..=8).map(des));
    boxes.push(aes());
    boxes.push(aes_round());
    // The lowest output of PRESENT is known as x1 + x2·x3 + x3 + x4, and no combination is affine.
    boxes.push(four_bits("present".to_string(), &PRESENT, Some(2)));
    boxes.extend((0..8).map(|number| four_bits(format!("serpent-s{number}"), &SERPENT[number], None)));
    boxes.extend((1..=8).map(cast));
    boxes
}

#[cfg(test)]
mod tests {
    use super::*;
    use crate::model;
    use crate::sheet;

    /// Of the 128 figures of the 32 boxes 51 are at hand.
    #[test]
    fn the_model_finds_the_published_figures() {
        let mut compared = 0;
        for known in all() {
            let Published { ref name, n, m, ref rows, .. } = known;
            let i = sheet::limit(m);
            let figures = [
                (known.nonlinearity, model::nonlinearity(n, m, rows, i, 4).unwrap()[0]),
                (known.xor, model::largest_cell(n, m, rows, 3).unwrap()[0]),
                (known.autocorrelation, model::autocorrelation(n, m, rows, i, 3).unwrap()[0]),
                (known.degree, model::degree(n, m, rows, i, 2).unwrap()[0]),
            ];
            for (published, measured) in figures {
                assert_eq!(published.unwrap_or(measured), measured, "{name}");
                compared += u32::from(published.is_some());
            }
            assert_eq!(known.bijective, model::bijective(n, m, rows, 1) == Ok([1]), "{name}");
            if known.avalanche {
                assert_eq!(model::dynamic_distance(n, m, rows, 1, 1, 3).unwrap()[0], 0, "{name}");
            }
        }
        assert_eq!(compared, 51);
    }

    #[test]
    fn there_are_32_boxes_with_unlike_names() {
        let mut names: Vec<String> = all().into_iter().map(|known| known.name).collect();
        assert_eq!(names.len(), 32);
        names.sort();
        names.dedup();
        assert_eq!(names.len(), 32);
    }

    /// Every row of every DES box, as printed, is a permutation of 0 to 15.
    #[test]
    fn des_tables_have_no_slips() {
        for printed in &DES {
            for row in printed.chunks(16) {
                let mut sorted = row.to_vec();
                sorted.sort();
                assert_eq!(sorted, (0..16).collect::<Vec<u32>>());
            }
        }
    }
    /// The first rows of the table as it is printed in programs for AES, and the witnesses: the
    /// two columns 3 and 10, which are combination 4 + 512, are equal. The three columns 1, 2
    /// and 9 sum up to 0 too, and their combination, 1 + 2 + 256, is smaller but has more ones.
    #[test]
    fn the_round_table_of_aes() {
        let rows = aes_round().rows;
        assert_eq!(rows[..4], [0xA563_63C6, 0x847C_7CF8, 0x9977_77EE, 0x8D7B_7BF6]);
        assert_eq!(model::combination(&rows, 259), [0; 256]);
        assert_eq!(model::combination(&rows, 516), [0; 256]);
        assert_eq!(model::nonlinearity(8, 32, &rows, 4, 4), Ok([0, 516, 0, 0]));
        assert_eq!(model::autocorrelation(8, 32, &rows, 4, 3), Ok([256, 516, 1]));
        assert_eq!(model::degree(8, 32, &rows, 4, 2), Ok([0, 516]));
    }

    /// One or two outputs of the table are as good as those of the box, or constant together.
    #[test]
    fn small_limits_on_the_round_table_of_aes() {
        let rows = aes_round().rows;
        assert_eq!(model::nonlinearity(8, 32, &rows, 1, 4).unwrap()[0], 112);
        assert_eq!(model::degree(8, 32, &rows, 1, 2), Ok([7, 1]));
        // Bit 3 of 2·S is bit 2 of S.
        assert_eq!(model::nonlinearity(8, 32, &rows, 2, 4), Ok([0, 4 + 512, 0, 0]));
        assert_eq!(model::degree(8, 32, &rows, 2, 2), Ok([0, 4 + 512]));
    }
}
