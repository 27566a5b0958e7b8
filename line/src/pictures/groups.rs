//! The connected components of a table (document 02, request (j): groups), as the proved
//! function reports them: no list of calls joins two of them.

use reference::table::domains;

use crate::kernels::boundary::component;
use crate::text::names::Names;

/// The components of an accepted table, each in order, the one with the lowest domain first.
pub fn groups(table: &[u32]) -> Vec<Vec<usize>> {
    let n = domains(table);
    let mut groups: Vec<Vec<usize>> = Vec::new();
    for domain in 0..n {
        if groups.iter().all(|group| !group.contains(&domain)) {
            let (_, members) = component(table, domain as u32);
            groups.push((0..n).filter(|member| members >> member & 1 != 0).collect());
        }
    }
    groups
}

/// A line that says which domains are in one component.
pub fn groups_in_words(table: &[u32], names: &Names) -> String {
    let groups = groups(table);
    let each: Vec<String> = groups.iter().map(|group| names.domain_row(group)).collect();
    match groups.len() {
        1 => "Connected components: one, of all domains\n".to_string(),
        _ => format!(
            "Connected components that no list can join: {}\n",
            each.join(" | ")
        ),
    }
}

#[cfg(test)]
mod tests {
    use super::*;
    use reference::example::TABLE_T;

    #[test]
    fn connected_components_are_reported() {
        assert_eq!(groups(&TABLE_T), [[0, 1, 2]]);
        assert_eq!(
            groups_in_words(&TABLE_T, &Names::none()),
            "Connected components: one, of all domains\n"
        );
        let mut apart = TABLE_T;
        apart[6] = 0x2000_0000;
        assert_eq!(groups(&apart), [vec![0, 1], vec![2]]);
        assert_eq!(
            groups_in_words(&apart, &Names::none()),
            "Connected components that no list can join: 0 1 | 2\n"
        );
        assert_eq!(
            groups_in_words(&apart, &Names::given("domain 2 drives")),
            "Connected components that no list can join: 0 1 | 2 (drives)\n"
        );
    }
}
