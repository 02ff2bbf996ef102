//! The calls on designs and servers as the crate `satmegwo` has them, but with nothing behind what
//! goes in by value that could be read (see by_value.rs).

pub mod design {
    use crate::by_value::{giving, telling};
    use crate::pages;
    use satmegwo::raw;
    pub use satmegwo::raw::{Design, DesignOutcome as Outcome, DesignSnapshot as Snapshot, MOST_ROWS};
    pub use satmegwo::slices::design::begin;
    use second_model::design::Operation;

    pub fn operate(design: &Design, operation: Operation) -> Outcome {
        let (name, function, numbers) = match operation {
            Operation::Swap(x, y) => ("design_swap", raw::satmegwo_design_swap as *const (), [x, y, 0]),
            Operation::Add(j, w, b) => ("design_add", raw::satmegwo_design_add as *const (), [j, w, b]),
            Operation::Mark(k) => ("design_mark", raw::satmegwo_design_mark as *const (), [k, 0, 0]),
            Operation::Return(k) => ("design_return", raw::satmegwo_design_return as *const (), [k, 0, 0]),
        };
        pages::calling(name);
        let [a, b, c] = numbers.map(|number| number as usize);
        unsafe { giving(function, design, [a, b, c, 0, 0]) }
    }

    pub fn read(design: &Design, rows: &mut [u32], figures: &mut [u32]) -> u32 {
        pages::calling("design_read");
        let numbers = [rows.as_mut_ptr() as usize, rows.len(), figures.as_mut_ptr() as usize, figures.len(), 0];
        unsafe { telling(raw::satmegwo_design_read as *const (), design, numbers) }
    }
}

pub mod server {
    use crate::by_value::{giving, telling};
    use satmegwo::raw;
    pub use satmegwo::raw::{Server, ServerOutcome as Outcome, ServerPlace as Place, MOST_ROWS};
    pub use satmegwo::slices::server::begin;

    /// A place with no box on it.
    pub const EMPTY: Place = Place { taken: 0, n: 0, m: 0, rows: [0; MOST_ROWS], examined: 0, count: 0, c: 0, w: 0, b: 0 };

    /// A box as it is put on a place: its rows and then zeros, and a count that no pair has.
    pub fn untouched_box(n: u32, m: u32, rows: &[u32]) -> Place {
        let mut kept = [0; MOST_ROWS];
        kept[..rows.len()].copy_from_slice(rows);
        Place { taken: 1, n, m, rows: kept, count: rows.len() as u32 + 1, ..EMPTY }
    }

    /// The least count of a place, with its witness.
    pub fn found_on(held: &Place) -> [u32; 4] {
        [held.count, held.c, held.w, held.b]
    }

    /// The place with this count and witness.
    pub fn with_found(held: Place, [count, c, w, b]: [u32; 4]) -> Place {
        Place { count, c, w, b, ..held }
    }

    pub fn put(server: Server, place: u32, n: u32, m: u32, rows: &[u32]) -> Outcome {
        let numbers = [place as usize, n as usize, m as usize, rows.as_ptr() as usize, rows.len()];
        unsafe { giving(raw::satmegwo_server_put as *const (), &server, numbers) }
    }

    pub fn withdraw(server: Server, place: u32) -> Outcome {
        unsafe { giving(raw::satmegwo_server_withdraw as *const (), &server, [place as usize, 0, 0, 0, 0]) }
    }

    pub fn step(server: Server) -> Server {
        unsafe { giving(raw::satmegwo_server_step as *const (), &server, [0; 5]) }
    }

    pub fn run(server: Server, budget: u32) -> Server {
        unsafe { giving(raw::satmegwo_server_run as *const (), &server, [budget as usize, 0, 0, 0, 0]) }
    }

    pub fn ask(server: Server, place: u32, figures: &mut [u32]) -> u32 {
        let numbers = [place as usize, figures.as_mut_ptr() as usize, figures.len(), 0, 0];
        unsafe { telling(raw::satmegwo_server_ask as *const (), &server, numbers) }
    }
}
