//! Random table images: a kernel's check of each beside the reference's.

use reference::check_bytes;

use crate::cases::random::image;
use crate::judging::tally::Tally;
use crate::judging::trying::{try_all, Draws, Found, Met};
use crate::kernels::boundary::Kernel;
use crate::kernels::child::{self, LIMIT};
use crate::text::explain::counted;

/// What images must meet.
pub fn met() -> Met {
    Met::codes("image code", [0, 2, 3, 4, 5])
}

/// Tries the images; the first that is wrong, in words and with its bytes.
pub fn try_images(kernel: &Kernel, draws: &Draws, tally: &mut Tally) -> Result<(), String> {
    let mut space = Vec::new();
    let found = try_all("table images", draws, &mut tally.images, |number, met| {
        let bytes = image(draws.seed, number);
        let code = kernel.table_check(lent(number, &bytes, &mut space));
        difference(&bytes, code)?;
        met.add_code("image code", code, 1);
        Ok(())
    });
    found.map_err(|found| report(kernel, draws, &found))
}

/// An image as it is lent: at each alignment in turn.
fn lent<'a>(number: u64, bytes: &[u8], space: &'a mut Vec<u8>) -> &'a [u8] {
    let start = (number / 8 % 4) as usize;
    space.clear();
    space.resize(start, 0);
    space.extend(bytes);
    &space[start..]
}

fn difference(bytes: &[u8], code: u32) -> Result<(), String> {
    match check_bytes(bytes) {
        wanted if wanted == code => Ok(()),
        wanted => Err(format!(
            "the kernel's check answers {code}, the reference {wanted}"
        )),
    }
}

/// What to show of an image that is wrong: where it came from, what is wrong, and its
/// bytes.
fn report(kernel: &Kernel, draws: &Draws, found: &Found) -> String {
    let bytes = image(draws.seed, found.number);
    let line = format!("fuzz --kernel {} --cases 0", kernel.name);
    let alone = wrong_alone(kernel, draws, found.number, &bytes);
    let again = found.again(&line, "--table-checks", draws, alone);
    let length = counted(bytes.len(), "byte");
    let head = found.head("table image", draws);
    format!("{head}{again}{length}:\n{}", rows(&bytes))
}

/// Bytes in rows of sixteen, each with its place.
pub fn rows(bytes: &[u8]) -> String {
    let rows = bytes.chunks(16).enumerate().map(|(row, bytes)| {
        let hex: Vec<String> = bytes.iter().map(|byte| format!("{byte:02X}")).collect();
        format!("{:04X}  {}\n", 16 * row, hex.join(" "))
    });
    rows.collect()
}

/// Whether an image is wrong with none tried before it.
fn wrong_alone(kernel: &Kernel, draws: &Draws, number: u64, bytes: &[u8]) -> bool {
    let mut space = Vec::new();
    let image = lent(number, bytes, &mut space);
    let checked = child::checks(kernel, &[image], draws.limit.min(LIMIT));
    checked.iter().any(|checked| match checked {
        Ok(code) => difference(bytes, *code).is_err(),
        Err(_) => true,
    })
}

#[cfg(test)]
mod tests {
    use super::*;
    use crate::kernels::boundary::{PROVED, PROVED_RUNS};
    use crate::kernels::faulty;
    use crate::trial::draws;

    fn found(kernel: Kernel) -> String {
        let found = try_images(&kernel, &draws(0..2000), &mut Tally::default());
        found.expect_err(kernel.name)
    }

    #[test]
    fn no_kernel_differs_and_every_code_is_met() {
        for kernel in PROVED_RUNS {
            let mut tally = Tally::default();
            let found = try_images(kernel, &draws(0..2000), &mut tally);
            assert_eq!(found, Ok(()), "{}", kernel.name);
            assert_eq!(tally.images.missing(), [""; 0]);
        }
    }

    #[test]
    fn a_faulty_check_is_found() {
        let report = found(faulty::LENIENT_CHECK);
        assert!(report.starts_with("DIFFERENCE in table image"), "{report}");
        assert!(report.contains("answers 0, the reference 5"), "{report}");
        assert!(report.contains(" --table-checks 1\n"), "{report}");
    }

    #[test]
    fn a_check_that_stops_is_found_with_its_image() {
        let report = found(faulty::CHECK_FAULTS);
        assert!(report.starts_with("STOPPED in table image"), "{report}");
        assert!(report.contains("signal 11"), "{report}");
        assert!(report.contains(" --table-checks 1\n"), "{report}");
    }

    #[test]
    fn a_check_that_is_wrong_only_after_others_is_reported_as_such() {
        use std::sync::atomic::{AtomicU32, Ordering::Relaxed};
        static CHECKS: AtomicU32 = AtomicU32::new(0);
        let kernel = PROVED.with_check("tires", |bytes| unsafe {
            let code = PROVED.table_check(&*bytes);
            code + u32::from(CHECKS.fetch_add(1, Relaxed) == 20)
        });
        let report = found(kernel);
        assert!(
            report.starts_with("DIFFERENCE in table image 20 "),
            "{report}"
        );
        assert!(report.contains("Only after those before it"), "{report}");
        assert!(report.contains("--from 0 --table-checks 21\n"));
    }
}
