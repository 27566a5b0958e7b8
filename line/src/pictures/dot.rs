//! A table as a graph in the language DOT, for other tools: the domains and endpoints as
//! nodes, with a cluster for each group, and the rights as edges.

use reference::table::{capacity, domains, endpoints, lost, name, owner, rights, waiting};

use crate::pictures::groups::groups;
use crate::pictures::parts::colour;
use crate::text::explain::{letters, rights_in_words};
use crate::text::names::Names;

/// The graph of an accepted table, and of what a list left of it where it was run. The
/// clusters are the groups of the table before the list, which no list joins.
pub fn graph(table: &[u32], names: &Names, left: Option<&[u32]>) -> String {
    let graph = Graph {
        table,
        names,
        left: left.unwrap_or(table),
    };
    let clusters = groups(table).into_iter().enumerate();
    let clusters: String = clusters
        .map(|(number, members)| graph.cluster(number, &members))
        .collect();
    let n = domains(table);
    let pairs = (0..n * n).map(|pair| (pair / n, pair % n));
    let edges: String = pairs
        .filter_map(|(holder, target)| graph.edge(holder, target))
        .collect();
    format!("digraph line {{\n{FONTS}{clusters}{edges}}}\n")
}

/// How texts are written in clusters, nodes and edges.
const FONTS: &str = "  \
  graph [fontname=\"DejaVu Sans\", fontsize=11];
  node [fontname=\"DejaVu Sans\", fontsize=11];
  edge [fontname=\"DejaVu Sans\", fontsize=9];
";

struct Graph<'a> {
    table: &'a [u32],
    names: &'a Names,
    /// The table after the list, or the same one.
    left: &'a [u32],
}

impl Graph<'_> {
    /// A group with its domains and their endpoints.
    fn cluster(&self, number: usize, members: &[usize]) -> String {
        let domains: String = members.iter().map(|&domain| self.domain(domain)).collect();
        let owned = |e: &usize| members.contains(&owner(self.table, *e));
        let endpoints = (0..endpoints(self.table)).filter(owned);
        let endpoints: String = endpoints.map(|e| self.endpoint(e)).collect();
        let label = quoted(&format!("group {number}"));
        format!("  subgraph cluster_{number} {{\n    label={label};\n{domains}{endpoints}  }}\n")
    }

    fn domain(&self, domain: usize) -> String {
        let attributes = [
            ("shape", "circle"),
            ("style", "filled"),
            ("fontcolor", "white"),
            ("fillcolor", colour(domain)),
            ("label", &self.names.domain_label(domain)),
        ];
        format!("    d{domain} {};\n", listed(&attributes))
    }

    /// An endpoint's node, and the line to its owner.
    fn endpoint(&self, e: usize) -> String {
        let counts = |table| (waiting(table, e), lost(table, e));
        let ((waits, lost), (waits_after, lost_after)) = (counts(self.table), counts(self.left));
        let label = format!(
            "{}\nname {}\n{} of {} waiting\n{} lost",
            self.names.endpoint(e),
            name(self.table, e),
            then(waits as u32, waits_after as u32),
            capacity(self.table, e),
            then(lost, lost_after)
        );
        let node = listed(&[("shape", "box"), ("label", &label)]);
        let line = listed(&[("style", "dotted"), ("arrowhead", "none")]);
        let owner = owner(self.table, e);
        format!("    e{e} {node};\n    e{e} -> d{owner} {line};\n")
    }

    /// The rights of a holder on a target, unless there are none before and after.
    fn edge(&self, holder: usize, target: usize) -> Option<String> {
        let before = rights(self.table, holder, target);
        let after = rights(self.left, holder, target);
        let (style, label) = match (before, after) {
            (0, 0) => return None,
            (0, _) => ("bold", format!("{} since the list", rights_in_words(after))),
            (_, 0) => (
                "dashed",
                format!("{} until the list", rights_in_words(before)),
            ),
            _ if before == after => ("solid", rights_in_words(before)),
            _ => (
                "bold",
                format!(
                    "{}, since the list {}",
                    rights_in_words(before),
                    rights_in_words(after)
                ),
            ),
        };
        let attributes = [
            ("label", label.as_str()),
            ("rights", &letters(before)),
            ("rights_after", &letters(after)),
            ("style", style),
            ("color", colour(holder)),
        ];
        Some(format!(
            "  d{holder} -> d{target} {};\n",
            listed(&attributes)
        ))
    }
}

/// A count, with the one after the list where that is another.
fn then(before: u32, after: u32) -> String {
    match before == after {
        true => before.to_string(),
        false => format!("{before} (after the list {after})"),
    }
}

fn listed(attributes: &[(&str, &str)]) -> String {
    let each: Vec<String> = attributes
        .iter()
        .map(|(name, value)| format!("{name}={}", quoted(value)))
        .collect();
    format!("[{}]", each.join(", "))
}

/// A text as DOT takes any: in quotes, with its own ones and what else means something
/// written so that it doesn't.
fn quoted(text: &str) -> String {
    let text = text.replace('\\', "\\\\").replace('"', "\\\"");
    format!("\"{}\"", text.replace('\n', "\\n"))
}

#[cfg(test)]
mod tests {
    use super::*;
    use crate::text::hex;
    use crate::text::input::Input;
    use reference::generate::{walled_table, Rng};

    /// The statements of a graph, the braces kept apart; what is wrong otherwise.
    fn statements(graph: &str) -> Result<Vec<String>, String> {
        let mut found = vec![String::new()];
        let (mut quoted, mut escaped, mut depth) = (false, false, 0);
        for letter in graph.chars() {
            match letter {
                '"' if !escaped => quoted = !quoted,
                '{' if !quoted => depth += 1,
                '}' if !quoted => depth -= 1,
                ';' if !quoted => found.push(String::new()),
                '\n' if quoted => return Err("a quoted text goes over a line".to_string()),
                _ => found.last_mut().expect("there is one").push(letter),
            }
            escaped = letter == '\\' && !escaped;
        }
        match (quoted, depth) {
            (false, 0) => Ok(found.iter().map(|one| one.trim().to_string()).collect()),
            _ => Err(format!("quoted {quoted}, depth {depth}")),
        }
    }

    fn count(statements: &[String], part: &str) -> usize {
        statements.iter().filter(|one| one.contains(part)).count()
    }

    #[test]
    fn every_right_endpoint_and_group_is_in_the_graph() {
        let mut rng = Rng::new(7);
        for _ in 0..200 {
            let table = walled_table(&mut rng, 16, 32);
            let n = domains(&table);
            let graph = graph(&table, &Names::none(), None);
            let statements = statements(&graph).expect("a graph");
            let held = (0..n * n).filter(|pair| rights(&table, pair / n, pair % n) != 0);
            assert_eq!(count(&statements, "rights_after="), held.count());
            assert_eq!(
                count(&statements, "subgraph cluster_"),
                groups(&table).len()
            );
            assert_eq!(count(&statements, "fillcolor="), n);
            assert_eq!(count(&statements, "shape=box"), endpoints(&table));
            assert_eq!(count(&statements, "style=dotted"), endpoints(&table));
        }
    }

    #[test]
    fn what_the_list_changed_is_reported() {
        let input = Input::example();
        let mut left = input.table.clone();
        reference::run(&mut left, &input.list, &mut [0; 27]);
        let graph = graph(&input.table, &Names::none(), Some(&left));
        assert!(
            graph.contains("d0 -> d2 [label=\"SEND since the list\""),
            "{graph}"
        );
        assert!(graph.contains("0 (after the list 1) lost"), "{graph}");
        assert!(
            graph.contains("d1 -> d2 [label=\"SEND+GRANT+REMOVE\""),
            "{graph}"
        );
    }

    #[test]
    fn names_stand_beside_the_numbers_and_nothing_breaks_a_text() {
        let given = hex::read(
            "domain 0 link\ntable 10000101 20000001 30000011 40000002 50000000 60000000 F0000000*8",
        );
        let given = given.expect("a text");
        let input = Input::parse(&given.bytes).expect("an input");
        let graph = graph(&input.table, &given.names, None);
        assert!(graph.contains("label=\"0 link\""), "{graph}");
        assert_eq!(quoted("a\"b\\c\nd"), "\"a\\\"b\\\\c\\nd\"");
        assert!(statements("d {\"a\nb\"}").is_err() && statements("d {").is_err());
    }
}
