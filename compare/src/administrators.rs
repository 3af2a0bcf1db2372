/// The most administrators that there can be.
const MOST: usize = 16;

/// What an administrator may do.
#[derive(Clone, Copy, PartialEq, Eq, Debug)]
pub(crate) enum Level {
    Enroll,
    Delete,
    All,
}

/// What a level may allow.
#[derive(Clone, Copy, PartialEq, Eq, Debug)]
pub(crate) enum Right {
    /// Let others enrol.
    Enroll,
    /// Let others delete.
    Delete,
}

impl Level {
    fn allows(self, right: Right) -> bool {
        match right {
            Right::Enroll => matches!(self, Level::Enroll | Level::All),
            Right::Delete => matches!(self, Level::Delete | Level::All),
        }
    }
}

/// The administrators, each an ID and a level.
#[derive(Default)]
pub(crate) struct Administrators {
    rows: Vec<(u16, Level)>,
}

impl Administrators {
    pub fn new() -> Administrators {
        Administrators {
            rows: Vec::with_capacity(MOST),
        }
    }

    pub fn contains(&self, id: u16) -> bool {
        self.rows.iter().any(|row| row.0 == id)
    }

    /// Whether some administrator has the right.
    pub fn any_may(&self, right: Right) -> bool {
        self.rows.iter().any(|row| row.1.allows(right))
    }

    /// Whether the ID is an administrator's who has the right.
    pub fn may(&self, id: u16, right: Right) -> bool {
        self.rows
            .iter()
            .any(|row| row.0 == id && row.1.allows(right))
    }

    /// Gives the ID a level. False where there is no row left for it.
    pub fn write(&mut self, id: u16, level: Level) -> bool {
        if let Some(row) = self.rows.iter_mut().find(|row| row.0 == id) {
            row.1 = level;
        } else if self.rows.len() < MOST {
            self.rows.push((id, level));
        } else {
            return false;
        }
        true
    }

    /// Strikes the row of the ID, if there is one.
    pub fn strike(&mut self, id: u16) {
        self.rows.retain(|row| row.0 != id);
    }

    pub fn clear(&mut self) {
        self.rows.clear();
    }
}
