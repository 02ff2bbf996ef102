//! Refusals that say what met their condition.
use crate::Refusal;
use std::error::Error;
use std::path::{Path, PathBuf};
use std::{fmt, io};

/// What met the condition of a refusal: the number, row or value that was given.
#[derive(Clone, Copy, Debug, PartialEq, Eq, Hash)]
#[non_exhaustive]
pub enum Detail {
    /// The number of inputs, n.
    Inputs(u32),
    /// The number of outputs, m.
    Outputs(u32),
    /// So many rows were given for a box of so many inputs.
    #[allow(missing_docs)] // said above
    Rows { given: usize, inputs: u32 },
    /// The first row that is not below 2^m, with its input.
    #[allow(missing_docs)] // said above
    Row { input: usize, value: u32, outputs: u32 },
    /// So many truth values were given for a table of so many inputs.
    #[allow(missing_docs)] // said above
    TruthValues { given: usize, inputs: u32 },
    /// The first truth value that is above 1, with its input.
    #[allow(missing_docs)] // said above
    TruthValue { input: usize, value: u8 },
    /// So many bytes were given for a box file of so many inputs; `None` where they do not say how many.
    #[allow(missing_docs)] // said above
    Bytes { given: usize, inputs: Option<u32> },
}

impl fmt::Display for Detail {
    fn fmt(&self, f: &mut fmt::Formatter<'_>) -> fmt::Result {
        match *self {
            Detail::Inputs(n) => write!(f, "n is {n}"),
            Detail::Outputs(m) => write!(f, "m is {m}"),
            Detail::Rows { given, inputs } => write!(f, "{given} rows are given, and {inputs} inputs need {}", 1 << inputs),
            Detail::Row { input, value, outputs } => {
                write!(f, "the row for input {input} is {value}, and {outputs} outputs end at {}", (1_u64 << outputs) - 1)
            }
            Detail::TruthValues { given, inputs } => write!(f, "{given} truth values are given, and {inputs} inputs need {}", 1 << inputs),
            Detail::TruthValue { input, value } => write!(f, "the truth value for input {input} is {value}"),
            Detail::Bytes { given, inputs: Some(n) } => {
                write!(f, "{given} bytes are given, and a box file of {n} inputs has {}", 2 + (4 << n))
            }
            Detail::Bytes { given, inputs: None } => write!(f, "{given} bytes are given, and a box file has 10 or more"),
        }
    }
}

/// A refusal (error code) and what met its condition, such as the first row that is too large.
///
/// It becomes a [`Refusal`] by `?` or `into`, where the number is enough.
///
/// ```
/// use satmegwo::{Detail, Refusal, Sbox};
///
/// let refused = Sbox::new(3, 2, [3, 1, 4, 0, 2, 5, 6, 7]).unwrap_err();
/// assert_eq!(refused.refusal, Refusal::Value);
/// assert_eq!(refused.detail, Detail::Row { input: 2, value: 4, outputs: 2 });
/// assert_eq!(
///     refused.to_string(),
///     "the row for input 2 is 4, and 2 outputs end at 3 (refused 4: a row is not below 2^m, or a truth value is above 1)"
/// );
/// ```
#[derive(Clone, Copy, Debug, PartialEq, Eq, Hash)]
#[allow(missing_docs)] // said above
pub struct DetailedRefusal {
    pub refusal: Refusal,
    pub detail: Detail,
}

impl DetailedRefusal {
    /// Of the checks of a box.
    pub(crate) fn of_box(refusal: Refusal, n: u32, m: u32, rows: &[u32]) -> DetailedRefusal {
        let detail = match refusal {
            Refusal::InputWidth => Detail::Inputs(n),
            Refusal::OutputWidth => Detail::Outputs(m),
            Refusal::ReadLength => Detail::Rows { given: rows.len(), inputs: n },
            _ => {
                let input = rows.iter().position(|&row| u64::from(row) >> m != 0).expect("a row is too large");
                Detail::Row { input, value: rows[input], outputs: m }
            }
        };
        DetailedRefusal { refusal, detail }
    }

    /// Of the checks of a box file.
    pub(crate) fn of_file(refusal: Refusal, file: &[u8]) -> DetailedRefusal {
        if refusal == Refusal::FileLength {
            let inputs = (file.len() >= 2).then(|| u32::from(file[0]));
            return DetailedRefusal { refusal, detail: Detail::Bytes { given: file.len(), inputs } };
        }
        let row = |bytes: &[u8]| u32::from_le_bytes(bytes.try_into().expect("four bytes are a row"));
        let rows: Vec<u32> = file[2..].chunks_exact(4).map(row).collect();
        DetailedRefusal::of_box(refusal, u32::from(file[0]), u32::from(file[1]), &rows)
    }

    /// Of the checks of a truth table.
    pub(crate) fn of_table(refusal: Refusal, n: u32, values: &[u8]) -> DetailedRefusal {
        let detail = match refusal {
            Refusal::InputWidth => Detail::Inputs(n),
            Refusal::ReadLength => Detail::TruthValues { given: values.len(), inputs: n },
            _ => {
                let input = values.iter().position(|&value| value > 1).expect("a value is too large");
                Detail::TruthValue { input, value: values[input] }
            }
        };
        DetailedRefusal { refusal, detail }
    }
}

impl fmt::Display for DetailedRefusal {
    fn fmt(&self, f: &mut fmt::Formatter<'_>) -> fmt::Result {
        write!(f, "{} ({})", self.detail, self.refusal)
    }
}

impl Error for DetailedRefusal {}

impl From<DetailedRefusal> for Refusal {
    fn from(refused: DetailedRefusal) -> Refusal {
        refused.refusal
    }
}

/// Why a file gave no box: it cannot be read, or it is not a box file. Its text begins with the path.
#[derive(Debug)]
#[allow(missing_docs)] // said above
pub enum FileError {
    /// It cannot be read.
    Unreadable { path: PathBuf, error: io::Error },
    /// It can be read, and is not a box file.
    Refused { path: PathBuf, error: DetailedRefusal },
}

impl FileError {
    /// The file.
    pub fn path(&self) -> &Path {
        match self {
            FileError::Unreadable { path, .. } | FileError::Refused { path, .. } => path,
        }
    }
}

impl fmt::Display for FileError {
    fn fmt(&self, f: &mut fmt::Formatter<'_>) -> fmt::Result {
        match self {
            FileError::Unreadable { path, error } => write!(f, "{}: {error}", path.display()),
            FileError::Refused { path, error } => write!(f, "{}: {error}", path.display()),
        }
    }
}

// The text has the cause, so that it is no source as well: reports that follow sources would say it twice.
impl Error for FileError {}
