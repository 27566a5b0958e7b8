//! `balkwizu show`: a table and a list in words, as a small diagram, and as a
//! picture.

use std::ffi::OsString;
use std::path::Path;

use reference::cut;
use reference::entry::ANSWER_WORDS;
use reference::table::domains;

use line::args::Options;
use line::cases::Case;
use line::kernels::boundary::PROVED;
use line::kernels::child;
use line::kernels::lent::Ran;
use line::output::{self, say};
use line::pictures::diagram::in_words;
use line::pictures::{dot, picture, stepping};
use line::refused;
use line::text::explain::meaning;
use line::text::given::read_given;
use line::text::hex;
use line::text::input::{self, Input};
use line::text::names::Names;

pub const HELP: &str = "\
balkwizu show FILE [--run] [--svg OUT [--domain D]] [--dot OUT] [--page OUT]
              [--calls N]

Shows an input of linerun in words: who has which right on whom, the queues with
what waits in them, and the calls of the list. FILE may be a text as
`balkwizu write` takes it; the names that it gives are printed with the numbers.

  --run       run the list on the kernel: each call with its answer, and the
              rights and queues that it leaves. Of a refused call: which right
              on whom is missing, who holds it, and which earlier call took it
              away
  --svg OUT   write the same as a picture to OUT: who has rights on whom as a
              grid and, up to 40, as arrows, connected components apart; with
              --run the table after the list and the answers too
  --domain D  draw the arrows from and to D alone, a domain's number or name
  --dot OUT   write the table as a graph in the language DOT to OUT, for other
              tools: with --run each arrow says what the list changed
  --page OUT  write a page to step through to OUT, for a browser and without a
              network: the list, and the rights, queues and holders after each
              call, as the reference implementation has them, with the source
              set of a domain; keys: arrows left and right, Home, End
  --calls N   show the first N calls only (default: all; in a picture 24, and
              about 1,300 at most, 750 with --run; in a page 500 at most)

Exit status: 0 shown; 1 the input or its table is refused, with every word that
is wrong; 2 bad usage, or a file that can't be read or written.
";

/// How many calls a picture shows where nothing else is asked for.
const CALLS_IN_PICTURE: usize = 24;

/// The files that are to be written.
struct Outs<'a> {
    svg: Option<&'a Path>,
    dot: Option<&'a Path>,
    page: Option<&'a Path>,
}

/// What is shown in them.
struct Shown<'a> {
    file: &'a Path,
    input: &'a Input,
    names: &'a Names,
    left: Option<&'a Ran>,
    calls: Option<usize>,
    /// The domain whose arrows alone are drawn.
    domain: Option<usize>,
}

/// The command: whether the input is one that runs.
pub fn command(line: &[OsString]) -> Result<bool, String> {
    let values = ["--svg", "--domain", "--dot", "--page", "--calls"];
    let options = Options::parse(line, &values, &["--run"])?;
    let file = options.file()?;
    if options.path("--domain").is_some() && options.path("--svg").is_none() {
        return Err("--domain is for --svg: it draws the arrows of one domain".to_string());
    }
    let calls = options.number("--calls")?.map(|calls| calls as usize);
    let outs = Outs::of(&options, file)?;
    let given = read_given(file)?;
    let input = match given.accepted() {
        Ok(input) => input,
        Err(refusal) => {
            let words = Input::parse(&given.bytes).map(|input| hex::write(&input));
            refused::report(file, &refusal, &words.unwrap_or_default());
            return Ok(false);
        }
    };
    let names = given.names;
    let domain = options.path("--domain").map(|word| {
        let word = word.to_string_lossy();
        names.domain_of(&word, domains(&input.table))
    });
    let domain = domain.transpose()?;
    let left = options.has("--run").then(|| ran(&input)).transpose()?;
    outs.write(&Shown {
        file,
        input: &input,
        names: &names,
        left: left.as_ref(),
        calls,
        domain,
    })?;
    output::write(in_words(&input, &names, left.as_ref(), calls.unwrap_or(usize::MAX)).as_bytes());
    outs.report();
    Ok(true)
}

impl Outs<'_> {
    /// The files that a line names, a different one each.
    fn of<'a>(options: &'a Options, file: &Path) -> Result<Outs<'a>, String> {
        let svg = file_for(options, "--svg", file)?;
        let dot = file_for(options, "--dot", file)?;
        let page = file_for(options, "--page", file)?;
        output::may_write_both(("--svg", svg), ("--dot", dot))?;
        output::may_write_both(("--svg", svg), ("--page", page))?;
        output::may_write_both(("--dot", dot), ("--page", page))?;
        Ok(Outs { svg, dot, page })
    }

    fn write(&self, shown: &Shown) -> Result<(), String> {
        let Shown { input, names, .. } = shown;
        if let Some(out) = self.svg {
            let most = shown.calls.unwrap_or(CALLS_IN_PICTURE);
            let svg = picture::svg_of(input, names, shown.left, most, shown.domain);
            output::write_file(out, &svg)?;
        }
        if let Some(out) = self.dot {
            let left = shown.left.map(|left| left.table.as_slice());
            output::write_file(out, &dot::graph(&input.table, names, left))?;
        }
        if let Some(out) = self.page {
            let title = input::shown(shown.file);
            let most = shown.calls.unwrap_or(usize::MAX);
            output::write_file(out, &stepping::page(&title, input, names, most))?;
        }
        Ok(())
    }

    /// Prints what was written.
    fn report(&self) {
        for out in [self.svg, self.dot].into_iter().flatten() {
            say!("picture written to {}", input::shown(out));
        }
        if let Some(out) = self.page {
            say!("page written to {}", input::shown(out));
        }
    }
}

/// The file that an option names to be written, unless it looks like an option itself or
/// is the input.
pub fn file_for<'a>(
    options: &'a Options,
    option: &str,
    input: &Path,
) -> Result<Option<&'a Path>, String> {
    let out = options.path(option);
    out.map_or(Ok(()), |out| output::may_write(option, out, &[input]))?;
    Ok(out)
}

/// What the kernel leaves of an input that is not refused.
pub fn ran(input: &Input) -> Result<Ran, String> {
    let case = Case {
        table: input.table.clone(),
        list: input.list.clone(),
        answers: vec![0; ANSWER_WORDS * cut(&input.list).len()],
        holders: vec![0; domains(&input.table)],
    };
    let ran = child::run(&PROVED, &case, child::LIMIT)?;
    match ran.outcome.code {
        0 => Ok(ran),
        code => Err(format!(
            "the kernel refuses it with {code}: {}",
            meaning(code)
        )),
    }
}
