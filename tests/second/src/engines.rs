//! The cross-product method has the answers of Liang-Barsky, refusals included. The two are written apart here, so each lot of
//! cases is asked of both before it is given out.

use crate::answer::answer;

/// Whether every line of `xp` is answered as it is by `lb`; else the first that is not.
pub fn agree(lot: &[Vec<u8>]) -> Result<(), String> {
    for arguments in lot.iter().filter_map(|line| line.strip_prefix(b"xp")) {
        let [xp, lb] = [b"xp", b"lb"].map(|word| answer(&[word, arguments].concat()));
        if xp != lb {
            let line = arguments.escape_ascii();
            return Err(format!("xp{line} is {xp}, but lb{line} is {lb}"));
        }
    }
    Ok(())
}
