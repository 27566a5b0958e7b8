//! The hash of an archive's machine code, as `firmware/identify` prints it: by it the archive
//! is found again in the program that a controller runs. The build script takes this file
//! too, for the archive that it links.

use std::collections::BTreeMap;

use super::sha256::sha256;

const SYMBOLS: u32 = 2;
const RELOCATIONS: u32 = 4;
const FUNCTION: u8 = 2;

/// R_X86_64_PC32 and R_X86_64_PLT32, whose four bytes a linker fills in.
const FILLED: [u64; 2] = [2, 4];
const FILLED_BYTES: usize = 4;

/// A section of an object: its type, where it is loaded, its bytes, and the sections that it
/// is about.
struct Section<'a> {
    kind: u32,
    address: usize,
    bytes: &'a [u8],
    link: usize,
    info: usize,
}

/// A function: its section, its place there and its length.
struct Function {
    section: usize,
    start: usize,
    length: usize,
}

/// Returns the SHA-256 of an archive's functions in the order of their names, with 0 in the
/// bytes that a linker fills in; or none where it is no archive for x86-64 of the kit.
pub fn text_sha256(archive: &[u8]) -> Option<String> {
    let sections = sections(member(archive)?)?;
    let mut text = Vec::new();
    for (name, function) in functions(&sections)? {
        text.extend(name);
        text.push(0);
        text.extend(code(&sections, &function)?);
    }
    Some(sha256(&text))
}

/// The one object of an archive of the kit.
fn member(archive: &[u8]) -> Option<&[u8]> {
    let mut rest = archive.strip_prefix(b"!<arch>\n")?;
    loop {
        let (head, after) = rest.split_at_checked(60)?;
        let size: usize = std::str::from_utf8(&head[48..58])
            .ok()?
            .trim()
            .parse()
            .ok()?;
        if !matches!(head[..16].trim_ascii(), b"/" | b"//") {
            return after.get(..size);
        }
        rest = after.get(size + size % 2..)?;
    }
}

/// The sections of an ELF file of 64 bits.
fn sections(image: &[u8]) -> Option<Vec<Section<'_>>> {
    if !image.starts_with(b"\x7fELF\x02\x01") {
        return None;
    }
    let (start, size) = (number::<8>(image, 40)?, number::<2>(image, 58)?);
    let section = |place: usize| {
        let head = image.get(start.checked_add(place * size)?..)?;
        let (offset, length) = (number::<8>(head, 24)?, number::<8>(head, 32)?);
        Some(Section {
            kind: number::<4>(head, 4)? as u32,
            address: number::<8>(head, 16)?,
            // One that takes no place in the file has none.
            bytes: image
                .get(offset..offset.checked_add(length)?)
                .unwrap_or_default(),
            link: number::<4>(head, 40)?,
            info: number::<4>(head, 44)?,
        })
    };
    (0..number::<2>(image, 60)?).map(section).collect()
}

/// The functions by their names, each of which there is once.
fn functions<'a>(sections: &[Section<'a>]) -> Option<BTreeMap<&'a [u8], Function>> {
    let mut functions = BTreeMap::new();
    for table in sections.iter().filter(|section| section.kind == SYMBOLS) {
        let names = sections.get(table.link)?.bytes;
        for symbol in table.bytes.chunks_exact(24) {
            let (section, length) = (number::<2>(symbol, 6)?, number::<8>(symbol, 16)?);
            let defined = 0 < section && section < sections.len();
            if symbol[4] & 15 != FUNCTION || length == 0 || !defined {
                continue;
            }
            let name = names.get(number::<4>(symbol, 0)?..)?;
            let name = name.split(|&byte| byte == 0).next()?;
            let start = number::<8>(symbol, 8)?.checked_sub(sections[section].address)?;
            let function = Function {
                section,
                start,
                length,
            };
            if functions.insert(name, function).is_some() {
                return None;
            }
        }
    }
    Some(functions)
}

/// The bytes of a function, with 0 where a linker fills in.
fn code(sections: &[Section], function: &Function) -> Option<Vec<u8>> {
    let bytes = sections[function.section].bytes.get(function.start..)?;
    let mut code = bytes.get(..function.length)?.to_vec();
    let tables = sections.iter().filter(|section| {
        let of_it = section.info == function.section;
        section.kind == RELOCATIONS && of_it
    });
    for entry in tables.flat_map(|table| table.bytes.chunks_exact(24)) {
        let kind = number::<4>(entry, 8)? as u64;
        if !FILLED.contains(&kind) {
            return None;
        }
        let place = number::<8>(entry, 0)?.checked_sub(function.start);
        if let Some(place) = place.filter(|&place| place < function.length) {
            code.get_mut(place..place + FILLED_BYTES)?.fill(0);
        }
    }
    Some(code)
}

/// The little-endian number of N bytes at a place.
fn number<const N: usize>(bytes: &[u8], at: usize) -> Option<usize> {
    let part = bytes.get(at..at.checked_add(N)?)?;
    let each = part.iter().rev();
    usize::try_from(each.fold(0u64, |number, &byte| number << 8 | u64::from(byte))).ok()
}

#[cfg(test)]
mod tests {
    use super::*;
    use crate::reports::facts::archive_text;
    use crate::scratch::Folder;
    use std::fs;
    use std::process::Command;

    const LINKED: &str = concat!(env!("OUT_DIR"), "/libbalkwizu.a");

    /// What `firmware/identify` prints for an archive.
    fn identified(archive: &std::path::Path) -> String {
        let identify = concat!(env!("CARGO_MANIFEST_DIR"), "/../firmware/identify");
        let printed = Command::new("python3").arg(identify).arg(archive).output();
        let printed = String::from_utf8(printed.expect("python3 starts").stdout).unwrap();
        printed.split(' ').next().unwrap_or_default().to_string()
    }

    /// The linked archive with one bit of some function's code turned.
    fn altered(archive: &[u8]) -> Vec<u8> {
        let object = member(archive).unwrap();
        let sections = sections(object).unwrap();
        let (_, function) = functions(&sections).unwrap().into_iter().next().unwrap();
        let first = sections[function.section].bytes[function.start..].as_ptr() as usize;
        let place = first - archive.as_ptr() as usize;
        let mut altered = archive.to_vec();
        altered[place] ^= 1;
        altered
    }

    #[test]
    fn it_is_what_identify_prints() {
        let archive = fs::read(LINKED).unwrap();
        let printed = identified(LINKED.as_ref());
        assert_eq!(printed.len(), 64, "{printed}");
        assert_eq!(archive_text(), Some(printed.as_str()));
        let turns = concat!(env!("OUT_DIR"), "/libbalkwizu_turns.a");
        let hash = text_sha256(&fs::read(turns).unwrap());
        assert_eq!(hash, Some(identified(turns.as_ref())));
        let folder = Folder::make("archive").unwrap();
        let other = folder.path().join("altered.a");
        fs::write(&other, altered(&archive)).unwrap();
        let hash = text_sha256(&altered(&archive)).unwrap();
        assert_eq!(hash, identified(&other));
        assert_ne!(hash, printed);
    }

    #[test]
    fn what_is_no_archive_for_x86_64_has_none() {
        assert_eq!(text_sha256(b""), None);
        assert_eq!(text_sha256(b"!<arch>\n"), None);
        let archive = fs::read(LINKED).unwrap();
        for length in [100, 1000, archive.len() / 2] {
            assert_eq!(text_sha256(&archive[..length]), None);
        }
        let object = member(&archive).unwrap();
        let place = object.as_ptr() as usize - archive.as_ptr() as usize;
        let mut other = archive.clone();
        other[place + 4] = 1;
        assert_eq!(text_sha256(&other), None, "an object of 32 bits");
    }
}
