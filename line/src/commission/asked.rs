//! What commissioning is asked for: on what the checks are judged, and what is to be
//! filed.

use std::path::Path;

use reference::table::domains;

use crate::args::Options;
use crate::kernels::boundary::{named, Kernel};
use crate::output::{may_write, may_write_both, write_file};
use crate::reports::facts::{Place, Report};
use crate::reports::json_facts::json;
use crate::reports::page::page;
use crate::text::input::read_once;
use crate::text::names::Names;

pub struct Asked<'a> {
    pub file: &'a Path,
    pub on: On<'a>,
    /// The domain whose purged calls are to be listed, by its number or its name.
    purged: Option<&'a str>,
    place: [Option<&'a str>; 3],
    report: Option<&'a Path>,
    json: Option<&'a Path>,
}

/// What the checks are judged on.
pub enum On<'a> {
    /// A kernel, with the seed of the variants and the runs of the campaign.
    Kernel(Kernel, u64, u64),
    /// The files of the words that were read back from a controller.
    ReadBack { answers: &'a Path, left: &'a Path },
}

/// The runs of a campaign where nothing else is asked for: some ten seconds of one processor.
const CAMPAIGN: u64 = 50_000;

/// The options that fill a field of the report.
const PLACE: [&str; 3] = ["--controller", "--site", "--firmware"];

/// The options that take a value.
pub const VALUED: [&str; 11] = [
    "--controller",
    "--site",
    "--firmware",
    "--purged",
    "--seed",
    "--campaign",
    "--kernel",
    "--answers",
    "--left",
    "--report",
    "--json",
];

impl Asked<'_> {
    pub fn of<'a>(options: &'a Options, kernels: &[Kernel]) -> Result<Asked<'a>, String> {
        let asked = Asked {
            file: options.file()?,
            on: on(options, kernels)?,
            purged: options.text("--purged"),
            place: PLACE.map(|option| options.text(option)),
            report: options.path("--report"),
            json: options.path("--json"),
        };
        asked.files_differ()?;
        asked.fields_are_used()?;
        Ok(asked)
    }

    /// That no field of a report is given where none is written.
    fn fields_are_used(&self) -> Result<(), String> {
        let given = PLACE
            .iter()
            .zip(self.place)
            .find(|(_, text)| text.is_some());
        match (given, self.report.or(self.json)) {
            (Some((option, _)), None) => Err(format!(
                "{option} fills a field of a report: --report or --json is wanted too"
            )),
            _ => Ok(()),
        }
    }

    /// What is commissioned, as far as it is given.
    pub fn place(&self) -> Place {
        let [controller, site, firmware] = self.place.map(|text| text.map(str::to_string));
        Place {
            controller,
            site,
            firmware,
        }
    }

    /// That nothing is written over what is read, and nothing twice.
    fn files_differ(&self) -> Result<(), String> {
        let mut read = vec![self.file];
        if let On::ReadBack { answers, left } = &self.on {
            read.extend([answers, left]);
        }
        read_once(&read)?;
        for (option, out) in [("--report", self.report), ("--json", self.json)] {
            out.map_or(Ok(()), |out| may_write(option, out, &read))?;
        }
        may_write_both(("--report", self.report), ("--json", self.json))
    }

    /// The domain of a table whose purged calls are to be listed.
    pub fn purged_in(&self, table: &[u32], names: &Names) -> Result<Option<usize>, String> {
        let found = self
            .purged
            .map(|word| names.domain_of(word, domains(table)));
        found.transpose().map_err(|why| format!("--purged: {why}"))
    }

    /// Writes what is to be filed; returns what to say of it, or what couldn't be written.
    pub fn file_away(&self, report: &Report) -> Result<String, String> {
        let mut written = String::new();
        let page = self.report.map(|out| (out, page(report)));
        let json = self.json.map(|out| (out, json(report)));
        for (out, text) in page.into_iter().chain(json) {
            write_file(out, &text)?;
            written += &format!("report written to {}\n", out.display());
        }
        Ok(written)
    }
}

fn on<'a>(options: &'a Options, kernels: &[Kernel]) -> Result<On<'a>, String> {
    let (answers, left) = match (options.path("--answers"), options.path("--left")) {
        (Some(answers), Some(left)) => (answers, left),
        (None, None) => {
            let kernel = named(options.text("--kernel").unwrap_or("balkwizu"), kernels)?;
            let seed = options.number("--seed")?.unwrap_or(1);
            let campaign = options.number("--campaign")?.unwrap_or(CAMPAIGN);
            return Ok(On::Kernel(kernel, seed, campaign));
        }
        _ => return Err("--answers and --left are given together".to_string()),
    };
    let runs = ["--kernel", "--seed", "--campaign"];
    match runs
        .into_iter()
        .find(|option| options.text(option).is_some())
    {
        Some(option) => Err(format!(
            "{option} is not for words that were read back: no kernel is run"
        )),
        None => Ok(On::ReadBack { answers, left }),
    }
}

#[cfg(test)]
mod tests {
    use super::*;
    use crate::kernels::boundary::PROVED_RUNS;
    use std::ffi::OsString;

    fn wrong(line: &str) -> String {
        let words: Vec<OsString> = line.split_whitespace().map(OsString::from).collect();
        let options = Options::parse(&words, &VALUED, &[]).unwrap();
        Asked::of(&options, PROVED_RUNS).err().unwrap_or_default()
    }

    #[test]
    fn what_does_not_go_together_is_reported() {
        assert_eq!(wrong("line"), "");
        assert_eq!(wrong("line --answers a --left t --report r --json j"), "");
        assert_eq!(
            wrong("line --answers a"),
            "--answers and --left are given together"
        );
        assert_eq!(
            wrong("line --left t"),
            "--answers and --left are given together"
        );
        let kernel = wrong("line --answers a --left t --kernel plain-gcc");
        assert!(kernel.starts_with("--kernel is not for words"), "{kernel}");
        let seed = wrong("line --answers a --left t --seed 2");
        assert!(seed.starts_with("--seed is not for words"), "{seed}");
        let campaign = wrong("line --answers a --left t --campaign 2");
        assert!(
            campaign.starts_with("--campaign is not for words"),
            "{campaign}"
        );
        let field = wrong("line --site a");
        assert!(
            field.starts_with("--site fills a field of a report: --report or"),
            "{field}"
        );
        assert_eq!(wrong("line --site a --firmware 3 --json j"), "");
        let once = "standard input can be read once only";
        assert_eq!(wrong("- --answers - --left t"), once);
        assert_eq!(wrong("line --answers - --left -"), once);
    }

    #[test]
    fn nothing_is_written_over_what_is_read_nor_twice() {
        let twice = "--report and --json need a file each";
        assert_eq!(wrong("line --report r --json r"), twice);
        assert_eq!(wrong("line --report r --json ./r"), twice);
        for read in ["line", "a", "t"] {
            let wrong = wrong(&format!("line --answers a --left t --json {read}"));
            assert_eq!(
                wrong,
                format!("--json {read} is the input, which it would overwrite")
            );
        }
        assert!(wrong("line --report -").contains("needs a file's name"));
    }
}
