//! A page to step through a list, call by call: one file of HTML that fetches nothing. What
//! it shows is worked out here by the reference implementation and embedded as JSON: the
//! first state whole, and then what each call changes.

use reference::cut;
use reference::table::{
    capacity, domains, endpoint_words, endpoints, lost, name, owner, rights, waiting, SLOTS_PLACE,
};
use reference::words::{bits, content};
use reference::Call;

use crate::reports::json::Json;
use crate::reports::page::escaped;
use crate::text::explain::{call_on_table, letters};
use crate::text::input::Input;
use crate::text::names::Names;
use crate::text::reasons::Replay;

/// The most calls that a page has.
pub const CALLS_MAX: usize = 500;

const STYLE: &str = include_str!("stepping.css");
const SCRIPT: &str = include_str!("stepping.js");

/// The page before the script fills it.
const BODY: &str = "\
<div id=\"list\">
<h1>TITLE</h1>
<p class=\"legend\"><span class=\"mark\"></span> calls that count for the domain chosen: their \
callers are in its source set</p>
<ol id=\"calls\"></ol>
</div>
<main>
<nav>
<button id=\"Home\" title=\"key Home\">&#8676;</button>
<button id=\"ArrowLeft\" title=\"key arrow left\">&#8592;</button>
<button id=\"ArrowRight\" title=\"key arrow right\">&#8594;</button>
<button id=\"End\" title=\"key End\">&#8677;</button>
<span id=\"done\"></span>
</nav>
<div id=\"head\">
<div id=\"at\"></div>
<div id=\"said\"></div>
<div id=\"answer\"></div>
</div>
<h2>Rights</h2>
<p class=\"legend\">S SEND, G GRANT, R REMOVE, V REVOKE; yellow is what the call changed</p>
<table id=\"rights\"></table>
<h2>Queues</h2>
<table id=\"queues\"></table>
<div id=\"tables\">
<section>
<h2>Holders: who has any right on a domain</h2>
<table id=\"holders\"></table>
</section>
<section>
<h2>Source set</h2>
<label>of domain <select id=\"domain\"></select></label>
<p><span id=\"where\"></span>: <b id=\"set\"></b></p>
</section>
</div>
</main>
";

/// The page of an accepted table and a list, with its first calls.
pub fn page(file: &str, input: &Input, names: &Names, most: usize) -> String {
    let data = compact(&data(input, names, most.min(CALLS_MAX)));
    let title = escaped(&format!("{file}, call by call"));
    let body = BODY.replace("TITLE", &title);
    format!(
        "<!DOCTYPE html>\n<html lang=\"en\">\n<head>\n<meta charset=\"utf-8\">\n\
         <meta name=\"viewport\" content=\"width=device-width\">\n<title>{title}</title>\n\
         <style>\n{STYLE}</style>\n</head>\n<body>\n{body}\
         <script type=\"application/json\" id=\"data\">{data}</script>\n\
         <script>\n{SCRIPT}</script>\n</body>\n</html>\n"
    )
}

/// A value's text in one line, with nothing in it that could end a script.
fn compact(value: &Json) -> String {
    let text = value.to_string();
    let lines = text.lines().map(str::trim_start);
    lines.collect::<String>().replace('<', "\\u003c")
}

/// Everything that the page shows.
fn data(input: &Input, names: &Names, most: usize) -> Json {
    let (table, calls) = (&input.table, cut(&input.list));
    let shown = calls.len().min(most);
    let label = |domain| Json::text(names.domain_label(domain));
    let each = || 0..domains(table);
    let (said, changes) = played(table, &calls, shown, names);
    Json::Object(vec![
        ("domains", Json::List(each().map(label).collect())),
        ("endpoints", Json::List(fixed(table, names))),
        ("more", number(calls.len() - shown)),
        ("calls", Json::List(said)),
        ("changes", Json::List(changes)),
        (
            "sources",
            Json::List(each().map(|d| sources(table, &calls, d, shown)).collect()),
        ),
        (
            "kept",
            Json::List(each().map(|d| kept(table, &calls, d, shown)).collect()),
        ),
    ])
}

fn number(number: usize) -> Json {
    Json::Number(number as u64)
}

/// What no call changes of the endpoints.
fn fixed(table: &[u32], names: &Names) -> Vec<Json> {
    let one = |endpoint| {
        Json::Object(vec![
            ("label", Json::text(names.endpoint_label(endpoint))),
            ("name", number(name(table, endpoint) as usize)),
            ("owner", number(owner(table, endpoint))),
            ("capacity", number(capacity(table, endpoint))),
        ])
    };
    (0..endpoints(table)).map(one).collect()
}

/// The first calls with their answers, and the changes of the state: all of it before the
/// list, then what each call changes.
fn played(table: &[u32], calls: &[Call], shown: usize, names: &Names) -> (Vec<Json>, Vec<Json>) {
    let mut replay = Replay::new(table, calls, names);
    let mut said = Vec::new();
    let mut changes = vec![change(None, table)];
    for call in &calls[..shown] {
        let (before, answer) = (replay.table().to_vec(), replay.answer());
        let answered = replay.answered(&answer);
        said.push(Json::Object(vec![
            ("asked", Json::text(call_on_table(call, table, names))),
            ("answer", Json::text(answered)),
            ("refused", number(bits(answer[0], 15, 0) as usize)),
        ]));
        changes.push(change(Some(&before), replay.table()));
    }
    (said, changes)
}

/// What a table has that the one before hadn't: all of it where there is none before.
fn change(before: Option<&[u32]>, table: &[u32]) -> Json {
    let n = domains(table);
    let alters = |fact: &dyn Fn(&[u32]) -> Json| {
        let now = fact(table);
        (before.map(fact) != Some(now.clone())).then_some(now)
    };
    let pairs = (0..n * n).filter_map(|at| alters(&|table| set(table, at / n, at % n)));
    let queues = (0..endpoints(table)).filter_map(|e| alters(&|table| queue(table, e)));
    let holders = (0..n).filter_map(|d| alters(&|table| held(table, d)));
    Json::Object(vec![
        ("rights", Json::List(pairs.collect())),
        ("queues", Json::List(queues.collect())),
        ("holders", Json::List(holders.collect())),
    ])
}

fn set(table: &[u32], holder: usize, target: usize) -> Json {
    let set = letters(rights(table, holder, target));
    Json::List(vec![number(holder), number(target), Json::Text(set)])
}

/// An endpoint's number, what waits, the oldest first, and its lost count.
fn queue(table: &[u32], endpoint: usize) -> Json {
    let slots = &endpoint_words(table, endpoint)[SLOTS_PLACE..];
    let messages = slots.iter().take(waiting(table, endpoint));
    let messages = messages.map(|&slot| number(content(slot) as usize));
    Json::List(vec![
        number(endpoint),
        Json::List(messages.collect()),
        number(lost(table, endpoint) as usize),
    ])
}

fn held(table: &[u32], domain: usize) -> Json {
    let word = reference::holders(table)[domain];
    Json::List(vec![number(domain), number(word as usize)])
}

/// The source set of a domain before each call and after the last one, as a word of bits.
fn sources(table: &[u32], calls: &[Call], domain: usize, shown: usize) -> Json {
    let sets = reference::sources(table, calls, domain);
    let words = sets[..=shown].iter().map(|set| {
        let word = set.iter().fold(0, |word, &member| word | 1 << member);
        Json::Number(word)
    });
    Json::List(words.collect())
}

/// Which calls are kept for a domain when the others are purged: a digit for each.
fn kept(table: &[u32], calls: &[Call], domain: usize, shown: usize) -> Json {
    let kept = reference::purge(table, calls, domain);
    let digits = kept[..shown]
        .iter()
        .map(|&kept| if kept { '1' } else { '0' });
    Json::Text(digits.collect())
}

#[cfg(test)]
mod tests {
    use super::*;
    use reference::generate::{self, Rng};
    use reference::influence::tables_before;
    use std::collections::BTreeMap;

    fn part<'a>(value: &'a Json, wanted: &str) -> &'a [Json] {
        let Json::Object(parts) = value else {
            panic!("{value} is no object");
        };
        let found = parts.iter().find(|(name, _)| *name == wanted);
        items(&found.expect("it is there").1)
    }

    fn items(value: &Json) -> &[Json] {
        match value {
            Json::List(items) => items,
            other => panic!("{other} is no list"),
        }
    }

    /// A state as the page has it: by the kind and the numbers of each place.
    type State = BTreeMap<(&'static str, String), Json>;

    /// What a change writes into a state; the last or last two items are what is written.
    fn write(state: &mut State, change: &Json) {
        for (kind, places) in [("rights", 2), ("queues", 1), ("holders", 1)] {
            for one in part(change, kind) {
                let (place, what) = items(one).split_at(places);
                let place = Json::List(place.to_vec()).to_string();
                state.insert((kind, place), Json::List(what.to_vec()));
            }
        }
    }

    fn whole(table: &[u32]) -> State {
        let mut state = State::new();
        let place = |numbers: &[usize]| {
            let numbers = numbers.iter().map(|&at| number(at));
            Json::List(numbers.collect()).to_string()
        };
        let n = domains(table);
        for (h, t) in (0..n * n).map(|at| (at / n, at % n)) {
            let set = Json::text(letters(rights(table, h, t)));
            state.insert(("rights", place(&[h, t])), Json::List(vec![set]));
        }
        for e in 0..endpoints(table) {
            let words = endpoint_words(table, e);
            let waits = words[4..4 + content(words[2]) as usize].iter();
            let waits = waits.map(|&word| number(content(word) as usize)).collect();
            let lost = number(content(words[3]) as usize);
            state.insert(
                ("queues", place(&[e])),
                Json::List(vec![Json::List(waits), lost]),
            );
        }
        for (d, &word) in reference::holders(table).iter().enumerate() {
            let word = Json::List(vec![number(word as usize)]);
            state.insert(("holders", place(&[d])), word);
        }
        state
    }

    fn check(input: &Input, most: usize) {
        let calls = cut(&input.list);
        let data = data(input, &Names::none(), most);
        let changes = part(&data, "changes");
        let shown = calls.len().min(most);
        assert_eq!(changes.len(), shown + 1);
        let mut state = State::new();
        for (change, table) in changes.iter().zip(tables_before(&input.table, &calls)) {
            write(&mut state, change);
            assert_eq!(state, whole(&table));
        }
        for (d, (sets, kept)) in part(&data, "sources")
            .iter()
            .zip(part(&data, "kept"))
            .enumerate()
        {
            let wanted = reference::sources(&input.table, &calls, d);
            let bits = wanted[..=shown].iter().map(|set| {
                let bits = set.iter().map(|member| 1 << member);
                Json::Number(bits.sum())
            });
            assert_eq!(items(sets), bits.collect::<Vec<_>>());
            let purged = reference::purge(&input.table, &calls, d);
            let digits: String = purged[..shown]
                .iter()
                .map(|&k| if k { "1" } else { "0" })
                .collect();
            assert_eq!(*kept, Json::Text(digits));
        }
    }

    #[test]
    fn the_embedded_states_are_the_reference_s() {
        check(&Input::example(), 500);
        let mut rng = Rng::new(90);
        for _ in 0..60 {
            let table = generate::table(&mut rng, 6, 5);
            let list = generate::list(&mut rng, &table, 50);
            let input = Input { table, list };
            check(&input, 500);
            check(&input, 10);
        }
    }

    #[test]
    fn the_page_has_the_data_and_nothing_that_ends_it_early() {
        let input = Input::example();
        let page = page("</script><i>&", &input, &Names::none(), usize::MAX);
        let data = compact(&data(&input, &Names::none(), CALLS_MAX));
        assert!(page.contains(&format!("id=\"data\">{data}</script>")));
        assert_eq!(page.matches("</script>").count(), 2);
        assert!(!page.contains("<i>") && !data.contains(['\n', '<']));
        assert!(data.contains("\"answer\": \"refused with 17: domain 0 has no SEND on domain 2"));
        assert!(!page.contains("http") && !page.contains("src="));
    }

    #[test]
    fn a_long_list_is_cut_and_the_page_says_so() {
        let mut input = Input::example();
        input.list = vec![0x5000_0000; 4096];
        let data = data(&input, &Names::none(), CALLS_MAX);
        assert_eq!(part(&data, "calls").len(), 500);
        assert!(data.to_string().contains("\"more\": 3596"));
    }

    #[test]
    fn the_script_is_short() {
        assert!(SCRIPT.lines().count() <= 150, "{}", SCRIPT.lines().count());
    }
}
