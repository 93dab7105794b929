//! Slices that are lent to the port, with a guard zone at each end: what stands there has to stay.

const ZONE: usize = 16;

pub struct Lent<T> {
    cells: Vec<T>,
    guard: T,
}

impl<T: Copy + PartialEq> Lent<T> {
    pub fn new(cells: &[T], guard: T) -> Lent<T> {
        let zone = vec![guard; ZONE];
        Lent { cells: [&zone, cells, &zone].concat(), guard }
    }

    pub fn filled(length: usize, cell: T, guard: T) -> Lent<T> {
        Lent::new(&vec![cell; length], guard)
    }

    pub fn len(&self) -> usize {
        self.cells.len() - 2 * ZONE
    }

    pub fn start(&mut self) -> *mut T {
        self.cells[ZONE..].as_mut_ptr()
    }

    /// The slice after the call. The guard zones have to be as they were.
    pub fn back(self) -> Vec<T> {
        let end = self.cells.len() - ZONE;
        let zones = self.cells[..ZONE].iter().chain(&self.cells[end..]);
        assert!(zones.copied().all(|cell| cell == self.guard), "a cell beside a lent slice was written");
        self.cells[ZONE..end].to_vec()
    }
}
