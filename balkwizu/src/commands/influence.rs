//! `balkwizu influence`: whose calls count for whom, in a list and ever, and by which rights.

use std::ffi::OsString;
use std::path::Path;

use reference::table::domains;

use line::args::Options;
use line::output::{self, say};
use line::pictures::chains::Asked;
use line::refused;
use line::text::given::read_given;
use line::text::input::Input;
use line::text::names::Names;

pub const HELP: &str = "\
balkwizu influence FILE [DOMAIN | FROM TO] [--calls N]

Do the calls of FROM count for TO? A call counts for a domain where its caller
is in the domain's source set: going from the end of the list back, the caller
of a call joins it by any right that it has then on a member. All other calls
are purged, and the domain has the same answers, rights, queues and lost counts
without them. With FROM and TO, each a domain's number or its name in the text,
the first line is one of these, and why comes after it:

  In this list ...     calls of FROM count for TO, which ones, and whether any
                       table of the run has a chain of rights from FROM to TO
  Not in this list,    none does, but some would by other calls, which are
  but it could ...     printed and which the proved kernel does
  Never ...            no list, whoever makes its calls, has one that counts: so
                       nothing that FROM does ever shows at TO. This is proved

With DOMAIN alone: whose calls count for it, for whom its own do, and each call
that is kept for it, with when and by which right its caller joined. Without
any: the same answers for all pairs as a grid, then all chains of rights in the
table, source sets along the list, the chains that calls could ever give, and
what never shows. A chain of rights is of one table: FROM has one, of any kind,
on some domain, that has one on the next, and so on to TO. A word that is a
number is taken as one.

  --calls N   print N of the calls that are kept at most (default: all)

FILE is an input of linerun or a text that `balkwizu write` takes. Who has a
chain of rights, now or ever, and the connected components are the proved
functions'. The chains themselves, and the source sets along the list, are found
here and compared with these functions and with the reference implementation.

Exit status: 0 answered, whatever the answer; 1 the input or its table is
refused, with what is wrong, or what was found differs; 2 bad usage, or a file
that can't be read.
";

/// Whom is asked about.
enum About<T> {
    All,
    One(T),
    Pair(T, T),
}

/// The command: whether it was answered.
pub fn command(line: &[OsString]) -> Result<bool, String> {
    let options = Options::parse(line, &["--calls"], &[])?;
    let (file, about) = match options.files.as_slice() {
        [] => return Err("no file is given; --help says what is wanted".to_string()),
        [file] => (file, About::All),
        [file, domain] => (file, About::One(domain)),
        [file, from, to] => (file, About::Pair(from, to)),
        [_, _, _, more, ..] => {
            return Err(format!("`{}` is not expected here", output::shown(more)))
        }
    };
    let calls = options.number("--calls")?.unwrap_or(u64::MAX) as usize;
    let given = read_given(file).map_err(|why| match about {
        About::One(_) | About::Pair(..) if why.starts_with("cannot read") && !file.exists() => {
            format!("{why}; FILE comes first, then the domains")
        }
        _ => why,
    })?;
    let input = match given.accepted() {
        Ok(input) => input,
        Err(refusal) => {
            refused::report(file, &refusal, "");
            return Ok(false);
        }
    };
    let domain = |word: &Path| {
        let word = word.to_string_lossy();
        given.names.domain_of(&word, domains(&input.table))
    };
    let about = match about {
        About::All => About::All,
        About::One(one) => About::One(domain(one)?),
        About::Pair(from, to) => About::Pair(domain(from)?, domain(to)?),
    };
    Ok(answer(&input, &given.names, about, calls))
}

fn answer(input: &Input, names: &Names, about: About<usize>, calls: usize) -> bool {
    let answer = Asked::of(input, names, calls).and_then(|asked| match about {
        About::All => asked.everything(),
        About::One(domain) => asked.one(domain),
        About::Pair(from, to) => asked.pair(from, to),
    });
    match &answer {
        Ok(text) => output::write(text.as_bytes()),
        Err(differs) => say!("{differs}"),
    }
    answer.is_ok()
}
