//! A trace from a file or from standard input. The one place that knows in what forms traces come: texts, and packed files, told by their mark.

use crate::meaning::refused;
use std::fs::File;
use std::io::{self, Read};
use std::path::Path;
use wheelotter::{Answer, Refusal};

/// How a packed file begins; no text does.
const PACKED: &[u8] = b"PYR";

/// Why a trace is turned back; a packed file has no part.
#[derive(Clone, Debug, PartialEq, Eq)]
pub struct Turned {
    pub answer: Answer,
    pub line: usize,
    pub part: Vec<u8>,
}

impl From<Refusal<'_>> for Turned {
    fn from(refusal: Refusal) -> Turned {
        Turned { answer: refusal.answer, line: refusal.line, part: refusal.part.to_vec() }
    }
}

/// The bytes of a file, or of standard input for `-`; of a longer one as many as tell that it is too long, as the program at the bench reads.
pub fn read(path: &Path) -> io::Result<Vec<u8>> {
    let mut bytes = Vec::new();
    let most = wheelotter::TEXT as u64 + 1;
    if path == Path::new("-") {
        io::stdin().take(most).read_to_end(&mut bytes)?;
    } else {
        File::open(path)?.take(most).read_to_end(&mut bytes)?;
    }
    Ok(bytes)
}

/// The text of a trace, which for a packed file the library writes. A text is not looked at.
pub fn text(bytes: Vec<u8>) -> Result<Vec<u8>, Turned> {
    if !bytes.starts_with(PACKED) {
        return Ok(bytes);
    }
    wheelotter::unpack(&bytes).map_err(|refusal| Turned { answer: refusal.answer, line: refusal.line, part: Vec::new() })
}

/// The text of a trace that the library takes; what is wrong with it otherwise, by the file's name.
pub fn trace(path: &Path) -> Result<String, String> {
    let wrong = |turned: Turned| format!("{}: {}", path.display(), refused(&turned));
    let bytes = read(path).map_err(|error| format!("{}: unreadable: {error}", path.display()))?;
    let text = text(bytes).map_err(wrong)?;
    wheelotter::check(&text).map_err(|refusal| wrong(refusal.into()))?;
    Ok(String::from_utf8(text).expect("the forms are made of ASCII"))
}
