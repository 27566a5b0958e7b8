//! `balkwizu compare`: what differs between the table of a card and the one that was planned.

use std::ffi::OsString;
use std::path::Path;

use reference::table::{domains, endpoints, DOMAINS_MAX, ENDPOINTS_MAX};

use line::args::Options;
use line::output::{complain, say};
use line::refused::{self, takes_repair, Refusal};
use line::text::differences::{differences, summary};
use line::text::explain::{counted, table_fault};
use line::text::given::{read_given, Given};
use line::text::input::{is_text, read_input, read_once, shown, Input};
use line::text::names::Names;

pub const HELP: &str = "\
balkwizu compare CARD PLAN [--image]

Compares two tables and prints what differs, one difference a line: a right or
an endpoint that CARD alone has is added, one that PLAN alone has is lost, and
what both have in different ways is altered: rights, an endpoint's owner,
capacity and name, the messages that wait in its queue, oldest first, and its
lost count. Domains and endpoints are compared by their numbers.

CARD and PLAN are inputs of linerun, texts as `balkwizu write` takes them, or
lines in words. Names are those of PLAN, and of CARD for what PLAN gives none;
lists are not compared. One of them may be `-`, standard input.

  --image   a file that is no text is a table's bytes alone, as a card has them

Exit status: 0 the tables are the same; 1 they differ; 2 bad usage, a file that
can't be read, or one whose table is refused.
";

/// The command: whether the tables are the same.
pub fn command(line: &[OsString]) -> Result<bool, String> {
    let options = Options::parse(line, &[], &["--image"])?;
    let (card, plan) = match options.files.as_slice() {
        [card, plan] => (card, plan),
        few => {
            let given = few.len();
            return Err(format!(
                "two files are needed, CARD and PLAN; {given} given"
            ));
        }
    };
    read_once(&[card, plan])?;
    let image = options.has("--image");
    let (card, on_card) = table_of(card, image)?;
    let (plan, planned) = table_of(plan, image)?;
    warn_of_names(&card, &on_card, &planned);
    let all = differences(&card, &plan, &together(planned, &on_card));
    for difference in &all {
        say!("{difference}");
    }
    match all.is_empty() {
        true => say!(
            "the same: {}, {}",
            counted(domains(&card), "domain"),
            counted(endpoints(&card), "endpoint")
        ),
        false => say!("{}", summary(&all)),
    }
    Ok(all.is_empty())
}

/// The accepted table of a file, with the names that it gives.
fn table_of(file: &Path, image: bool) -> Result<(Vec<u32>, Names), String> {
    let is_refused =
        |refusal: Refusal| format!("{} is {}", shown(file), refused::in_words(&refusal));
    let Given { bytes, names, .. } = match image {
        false => read_given(file)?,
        true => read_image(file)?,
    };
    let input = Input::parse(&bytes).map_err(is_refused)?;
    let Some(refusal) = table_fault(&input.table, &names) else {
        return Ok((input.table, names));
    };
    let option = if image && names.is_empty() {
        " --image"
    } else {
        ""
    };
    let mends = match takes_repair(&input.table) {
        true => format!(
            "\n`balkwizu repair {} OUT{option}` makes it fit again; compare OUT then",
            shown(file)
        ),
        false => String::new(),
    };
    Err(is_refused(refusal) + &mends)
}

/// A file that is a table's bytes alone, or a text.
fn read_image(file: &Path) -> Result<Given, String> {
    if file != Path::new("-") && is_text(&read_input(file)?) {
        return read_given(file);
    }
    let input = Input::of_image(&read_input(file)?);
    let input = input.map_err(|refusal| {
        let (file, why) = (shown(file), refused::in_words(&refusal));
        format!("{file} is {why}")
    })?;
    Ok(Given {
        bytes: input.to_bytes(),
        names: Names::none(),
        warnings: Vec::new(),
        lines: Vec::new(),
    })
}

/// The names of the plan, and for what it gives none those of the card. A name that the plan
/// has for another is left out.
fn together(planned: Names, on_card: &Names) -> Names {
    let mut names = planned;
    for domain in 0..DOMAINS_MAX {
        let name = on_card.domain_name(domain);
        let _ = name.map_or(Ok(()), |name| names.name_domain(domain, name));
    }
    for endpoint in 0..ENDPOINTS_MAX {
        let name = on_card.endpoint_name(endpoint);
        let _ = name.map_or(Ok(()), |name| names.name_endpoint(endpoint, name));
    }
    names
}

/// Warns of a domain or an endpoint that both texts name, each by another name.
fn warn_of_names(card: &[u32], on_card: &Names, planned: &Names) {
    let domains = (0..domains(card)).map(|domain| {
        let both = (on_card.domain_name(domain), planned.domain_name(domain));
        ("domain", domain, both)
    });
    let endpoints = (0..endpoints(card)).map(|endpoint| {
        let both = (
            on_card.endpoint_name(endpoint),
            planned.endpoint_name(endpoint),
        );
        ("endpoint", endpoint, both)
    });
    for (what, number, both) in domains.chain(endpoints) {
        if let (Some(there), Some(name)) = both {
            if there != name {
                complain!(
                    "balkwizu compare: {what} {number} is {there} in CARD and {name} in PLAN: \
                     numbers are compared, not names"
                );
            }
        }
    }
}
