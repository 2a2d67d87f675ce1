//! What every entry replies: the five numbers of document 01, "Reply numbers".

/// A reply, laid out as the header's struct, so that it is also what the entries return.
#[repr(C)]
#[derive(Clone, Copy, Debug, Default, PartialEq, Eq)]
pub struct Reply {
    pub number: u32,
    pub record: u32,
    pub row: u32,
    pub states: u32,
    pub rounds: u32,
}

/// The reply to reading a controller: U and V stand behind the five numbers.
#[repr(C)]
#[derive(Clone, Copy, Debug, Default, PartialEq, Eq)]
pub struct ControllerReply {
    pub reply: Reply,
    pub u: u32,
    pub v: u32,
}

impl Reply {
    /// Success, with the states of what was read, written, checked or found.
    pub fn success(states: u32) -> Reply {
        Reply {
            states,
            ..Reply::default()
        }
    }

    /// A refusal that names neither record nor row (9 to 16).
    pub fn refused(number: u32) -> Reply {
        Reply {
            number,
            ..Reply::default()
        }
    }

    /// A refusal of a record (1 to 4 and 8).
    pub fn of_record(number: u32, record: u32) -> Reply {
        Reply {
            number,
            record,
            ..Reply::default()
        }
    }

    /// A refusal of a row (5 to 7).
    pub fn of_row(number: u32, record: u32, row: usize) -> Reply {
        Reply {
            number,
            record,
            row: row as u32,
            ..Reply::default()
        }
    }
}
