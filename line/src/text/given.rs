//! What a command is given in a file: an input of linerun, or a text that it is made of.

use std::path::Path;

use crate::output::complain;
use crate::text::explain::table_fault;
use crate::text::hex;
use crate::text::input::{read_typed, shown, typed, Input, INPUT_BYTES_MAX};
use crate::text::names::Names;

/// What was given: the bytes for `linerun`, and the names that a text gives with them.
#[derive(Debug, Clone, PartialEq, Eq)]
pub struct Given {
    pub bytes: Vec<u8>,
    pub names: Names,
    /// What is lawful and probably not meant.
    pub warnings: Vec<String>,
    /// The line of each word of the list, where a text gives it.
    pub lines: Vec<usize>,
}

impl Given {
    /// The table and the list where the table is accepted; otherwise the number that
    /// refuses them, and what is wrong.
    pub fn accepted(&self) -> Result<Input, (u32, String)> {
        let input = Input::parse(&self.bytes)?;
        match table_fault(&input.table, &self.names) {
            Some(fault) => Err(fault),
            None => Ok(input),
        }
    }
}

/// The line whose calls a text may give alone: its names, and how many domains and endpoints
/// it has.
pub type Of<'a> = (&'a Names, Option<(usize, usize)>);

/// What a file gives that is an input of linerun or a text (`-` is standard input).
pub fn read_given(path: impl AsRef<Path>) -> Result<Given, String> {
    warned(path.as_ref(), |bytes| given(bytes, None))
}

/// The same of a file that may be a text with a list alone, for some line.
pub fn read_given_list(path: impl AsRef<Path>, of: Of) -> Result<Given, String> {
    warned(path.as_ref(), |bytes| given(bytes, Some(of)))
}

/// What bytes give; or everything that is wrong with the text that they are.
pub fn given(mut bytes: Vec<u8>, list_of: Option<Of>) -> Result<Given, String> {
    if let Some(text) = typed(&bytes)? {
        return match list_of {
            None => hex::read(text),
            Some((names, sizes)) => hex::read_list(text, names, sizes),
        };
    }
    bytes.truncate(INPUT_BYTES_MAX);
    Ok(Given {
        bytes,
        names: Names::none(),
        warnings: Vec::new(),
        lines: Vec::new(),
    })
}

/// What is taken of a file, with its warnings on standard error.
fn warned(
    path: &Path,
    take: impl FnOnce(Vec<u8>) -> Result<Given, String>,
) -> Result<Given, String> {
    let given = read_typed(path, take)?;
    for warning in &given.warnings {
        complain!("{}: {warning}", shown(path));
    }
    Ok(given)
}

#[cfg(test)]
mod tests {
    use super::*;
    use crate::scratch::Folder;
    use std::fs;

    fn example(name: &str) -> String {
        format!("{}/{name}", env!("CARGO_MANIFEST_DIR"))
    }

    #[test]
    fn a_text_gives_its_input() {
        let given = read_given(example("../balkwizu/examples/worked.txt")).unwrap();
        assert_eq!(given.bytes, Input::example().to_bytes());
        assert!(given.names.is_empty());
        let wrong = read_given(example("Cargo.toml")).unwrap_err();
        assert!(wrong.contains("Cargo.toml: line 1, column 1: "), "{wrong}");
        let of = (&Names::none(), None);
        let list = read_given_list(example("../balkwizu/examples/worked.txt"), of).unwrap();
        assert_eq!(list, given);
        let calls = read_given_list(example("../balkwizu/examples/calls.txt"), of).unwrap();
        assert_eq!(calls.bytes.len(), 4 * (1 + 12));
    }

    #[test]
    fn nothing_of_a_text_is_left_out() {
        let folder = Folder::make("given").unwrap();
        let file = folder.path().join("long.txt");
        let comment = "#".repeat(1_000_000);
        fs::write(
            &file,
            format!("table 10000100 20000000\n{comment}\nlist 50000000"),
        )
        .unwrap();
        let said = read_given(&file).unwrap_err();
        assert!(
            said.ends_with("long.txt: it is above 1,000,000 bytes"),
            "{said}"
        );
        fs::write(&file, b"table 10000100\n20000000 # \xE9\n").unwrap();
        let said = read_given(&file).unwrap_err();
        assert!(
            said.contains("long.txt: line 2 has a letter that is not UTF-8"),
            "{said}"
        );
    }

    #[test]
    fn what_never_ends_is_read_as_far_as_it_can_matter() {
        let given = read_given("/dev/zero").unwrap();
        assert_eq!(given.bytes.len(), INPUT_BYTES_MAX);
        assert!(given.names.is_empty());
        assert!(read_given("/no/such/file").is_err());
    }
}
