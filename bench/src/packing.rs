//! Packed columns: both ways, on random boxes.
use crate::peers;
use crate::rows::{Row, Rows};
use satmegwo::slices as library;
use second_model::boxes::random_rows;
use second_model::packing::{bytes_of_a_column, pack_quickly, unpack_quickly};
use second_model::random::Random;

pub fn measure(rows: &Rows, random: &mut Random) -> Result<(), String> {
    for (n, m) in [(2, 32), (4, 4), (8, 8), (8, 16), (8, 32)] {
        let unpacked = random_rows(n, m, random);
        let mut packed = vec![0; m as usize * bytes_of_a_column(n)];
        pack_quickly(n, &unpacked, &mut packed);
        rows.measure(&Row {
            size: format!("{n}x{m}"),
            name: "pack columns".to_string(),
            inputs: &[unpacked],
            lent: vec![0; packed.len()],
            fresh: false,
            library: &|rows, out: &mut Vec<u8>| assert_eq!(library::pack_columns(n, m, rows, out), 0),
            second: Some(&|rows, out| pack_quickly(n, rows, out)),
            peer: Some(&|rows, out| peers::pack(n, m, rows, out)),
            other: None,
            bar: None,
        })?;
        rows.measure(&Row {
            size: format!("{n}x{m}"),
            name: "unpack columns".to_string(),
            inputs: &[packed],
            lent: vec![0; 1 << n],
            fresh: false,
            library: &|packed, out: &mut Vec<u32>| assert_eq!(library::unpack_columns(n, m, packed, out), 0),
            second: Some(&|packed, out| unpack_quickly(n, packed, out)),
            peer: Some(&|packed, out| peers::unpack(n, m, packed, out)),
            other: None,
            bar: None,
        })?;
    }
    Ok(())
}
