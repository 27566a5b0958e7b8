//! Who can reach whom in a table by a chain of rights (document 02, request (h)), as the
//! proved functions tell it.

use reference::table::domains;

use crate::kernels::boundary::{who_reaches, PROVED};
use crate::text::names::Names;

/// The holders' words of an accepted table: those that a run of an empty list leaves.
pub fn holders_of(table: &[u32]) -> Vec<u32> {
    let mut holders = vec![0; domains(table)];
    PROVED.run(&mut table.to_vec(), &[], &mut [], &mut holders);
    holders
}

/// The domains that have a chain of rights to a domain, itself included.
pub fn reached_by(holders: &[u32], domain: usize) -> Vec<usize> {
    let (_, set) = who_reaches(holders, domain as u32);
    (0..holders.len()).filter(|u| set >> u & 1 != 0).collect()
}

/// A line that says, for each domain, who can reach it.
pub fn reach_in_words(holders: &[u32], names: &Names) -> String {
    let each = (0..holders.len()).map(|domain| {
        let by = names.domain_row(&reached_by(holders, domain));
        format!("{} by {by}", names.domain(domain))
    });
    each.collect::<Vec<_>>().join(", ")
}

#[cfg(test)]
mod tests {
    use super::*;
    use reference::example::TABLE_T;

    #[test]
    fn who_reaches_whom_is_reported() {
        let holders = holders_of(&TABLE_T);
        assert_eq!(holders, [0b010, 0b001, 0b010]);
        assert_eq!(
            reach_in_words(&holders, &Names::none()),
            "domain 0 by 0 1, domain 1 by 0 1, domain 2 by 0 1 2"
        );
        let names = Names::given("domain 0 link\ndomain 1 loader");
        assert_eq!(
            reach_in_words(&holders[..2], &names),
            "domain 0 (link) by 0 (link) 1 (loader), domain 1 (loader) by 0 (link) 1 (loader)"
        );
    }
}
