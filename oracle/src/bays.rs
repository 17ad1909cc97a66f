//! The bays of the backplane and their labels (document 02, L5).

/// "four rows and six columns"
const ROWS: u8 = 4;
const COLUMNS: u8 = 6;
/// "The 24-bay backplane"
const BAYS: u8 = ROWS * COLUMNS;

/// A bay by its place, "both from 0".
struct Bay {
    row: u8,
    column: u8,
}

impl Bay {
    /// "The 24-bay backplane wires its index down the columns". Document 01: "byte 0 is a bay
    /// index, 0 to 23."
    fn of_index(index: u8) -> Option<Bay> {
        if index >= BAYS {
            return None;
        }
        Some(Bay {
            row: index % ROWS,
            column: index / ROWS,
        })
    }

    /// "The labels run along the rows". "a label outside 1 to 24 gives none"
    fn of_label(label: u8) -> Option<Bay> {
        let before = label.checked_sub(1)?;
        if before >= BAYS {
            return None;
        }
        Some(Bay {
            row: before / COLUMNS,
            column: before % COLUMNS,
        })
    }

    /// "index = 4 x column + row, both from 0"
    fn index(self) -> u8 {
        ROWS * self.column + self.row
    }

    /// "label = 6 x row + column + 1"
    fn label(self) -> u8 {
        COLUMNS * self.row + self.column + 1
    }
}

/// The label on the bay with this index; none where no bay has it.
pub fn label(index: u8) -> Option<u8> {
    Bay::of_index(index).map(Bay::label)
}

/// "The bench also wants the way back; each of the 24 labels belongs to exactly one index".
pub fn index(label: u8) -> Option<u8> {
    Bay::of_label(label).map(Bay::index)
}
