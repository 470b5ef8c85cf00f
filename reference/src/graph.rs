//! The policy graph of RFC 9618, and the judge that builds it.

use crate::answer::{Answer, DEPTHS, MAPS_ANY, NO_GRAPH, NO_USER_POLICY};
use crate::counters::Counters;
use crate::path::{Certificate, Path, ANY};

/// A node: its policy, the policies that it expects at the next depth, and
/// the policies of its parents at the depth above.
struct Node {
    policy: u16,
    expected: Vec<u16>,
    parents: Vec<u16>,
}

/// "For any depth x and policy OID P-OID, there is at most one node at depth
/// x whose valid_policy is P-OID." (RFC 9618 5.2)
type Level = Vec<Node>;

/// The levels from depth 0 on. A graph that stands has its root.
struct Graph {
    levels: Vec<Level>,
}

impl Graph {
    /// "The graph is one node at depth 0: anyPolicy, expecting {anyPolicy}."
    fn start() -> Graph {
        let root = Node { policy: ANY, expected: vec![ANY], parents: Vec::new() };
        Graph { levels: vec![vec![root]] }
    }

    /// Step (d) of 6.1.3: adds depth i and deletes the nodes without
    /// children. None if the graph is gone.
    fn add_policies(mut self, policies: &[u16], any_counts: bool) -> Option<Graph> {
        let above = self.levels.last()?;
        let expectations = expectations(above);
        let any_above = has_node(above, ANY);
        let mut level = Level::new();
        // (d)(1): "each listed P other than anyPolicy becomes one node at
        // depth i, expecting {P}, under all depth i-1 nodes that expect P; if
        // none does, under the depth i-1 anyPolicy node, if there is one;
        // else no node"
        for &policy in policies.iter().filter(|&&policy| policy != ANY) {
            let mut parents = expecting(&expectations, policy);
            if parents.is_empty() && any_above {
                parents.push(ANY);
            }
            if !parents.is_empty() {
                level.push(Node { policy, expected: vec![policy], parents });
            }
        }
        // (d)(2): "each policy expected at depth i-1, anyPolicy included, with
        // no node at depth i yet gets one expecting {itself}, under all nodes
        // that expect it"
        if any_counts {
            let present: Vec<u16> = level.iter().map(|node| node.policy).collect();
            for group in expectations.chunk_by(|one, other| one.0 == other.0) {
                let policy = group[0].0;
                if !present.contains(&policy) {
                    let parents = group.iter().map(|&(_, parent)| parent).collect();
                    level.push(Node { policy, expected: vec![policy], parents });
                }
            }
        }
        self.levels.push(level);
        self.prune()
    }

    /// Step (b) of 6.1.4, for each issuer policy D. None if the graph is gone.
    fn map_policies(mut self, mappings: &[(u16, u16)], mapping_allowed: bool) -> Option<Graph> {
        let level = self.levels.last_mut()?;
        if !mapping_allowed {
            // (b)(3): "If policy_mapping is 0, node D is deleted and childless
            // nodes above go as before."
            level.retain(|node| !mappings.iter().any(|&(issuer, _)| issuer == node.policy));
            return self.prune();
        }
        // Each issuer policy's pairs side by side.
        let mut pairs = mappings.to_vec();
        pairs.sort_unstable();
        let any_stands = has_node(level, ANY);
        for group in pairs.chunk_by(|one, other| one.0 == other.0) {
            let issuer = group[0].0;
            let subjects = group.iter().map(|&(_, subject)| subject).collect();
            if let Some(node) = level.iter_mut().find(|node| node.policy == issuer) {
                // (b)(1): "the depth i node D expects exactly D's subject
                // policies"
                node.expected = subjects;
            } else if any_stands {
                // (b)(2): "D is added under the depth i-1 anyPolicy node with
                // those expectations"
                level.push(Node { policy: issuer, expected: subjects, parents: vec![ANY] });
            }
        }
        Some(self)
    }

    /// "nodes at depth i-1 or less without children are deleted until none is
    /// left. Without its root the graph is gone." Where a depth loses no
    /// node, the depths above it lose none.
    fn prune(mut self) -> Option<Graph> {
        for depth in (0..self.levels.len() - 1).rev() {
            let below = self.levels[depth + 1].iter();
            let mut parents: Vec<u16> = below.flat_map(|node| &node.parents).copied().collect();
            parents.sort_unstable();
            let level = &mut self.levels[depth];
            let before = level.len();
            level.retain(|node| parents.binary_search(&node.policy).is_ok());
            if level.len() == before {
                break;
            }
        }
        if self.levels[0].is_empty() {
            None
        } else {
            Some(self)
        }
    }

    /// The number of nodes at each depth.
    fn counts(&self) -> [u16; DEPTHS] {
        let mut counts = [0; DEPTHS];
        for (count, level) in counts.iter_mut().zip(&self.levels) {
            *count = level.len() as u16;
        }
        counts
    }

    /// "every policy other than anyPolicy whose node's only parent is an
    /// anyPolicy node, and anyPolicy if it stands at depth n"
    fn authority_set(&self) -> Vec<u16> {
        let nodes = self.levels.iter().flatten();
        let mut set: Vec<u16> = nodes
            .filter(|node| node.policy != ANY && node.parents == [ANY])
            .map(|node| node.policy)
            .collect();
        if self.levels.last().is_some_and(|level| has_node(level, ANY)) {
            set.push(ANY);
        }
        set.sort_unstable();
        set.dedup();
        set
    }
}

fn has_node(level: &Level, policy: u16) -> bool {
    level.iter().any(|node| node.policy == policy)
}

/// Each policy expected in a level beside the policy of a node that expects
/// it, ascending.
fn expectations(level: &Level) -> Vec<(u16, u16)> {
    let mut pairs: Vec<(u16, u16)> = level
        .iter()
        .flat_map(|node| node.expected.iter().map(|&expected| (expected, node.policy)))
        .collect();
    pairs.sort_unstable();
    pairs
}

/// The nodes that expect the policy.
fn expecting(expectations: &[(u16, u16)], policy: u16) -> Vec<u16> {
    let first = expectations.partition_point(|&(expected, _)| expected < policy);
    let rest = expectations[first..].iter();
    rest.take_while(|&&(expected, _)| expected == policy).map(|&(_, node)| node).collect()
}

/// "User set: the authority set if the user list is any-policy; otherwise its
/// members on the user list, and the whole user list if the authority set has
/// anyPolicy." "Repeats in the user list count once."
fn user_set(path: &Path, authority: &[u16]) -> Vec<u16> {
    if path.user_is_any() {
        return authority.to_vec();
    }
    let mut set = path.user.clone();
    if !authority.contains(&ANY) {
        set.retain(|policy| authority.binary_search(policy).is_ok());
    }
    set.sort_unstable();
    set.dedup();
    set
}

/// The graph after a certificate's policies. "No policies: there is no graph
/// from here on."
fn after_policies(
    graph: Option<Graph>,
    certificate: &Certificate,
    any_counts: bool,
) -> Option<Graph> {
    if certificate.policies.is_empty() {
        return None;
    }
    graph?.add_policies(&certificate.policies, any_counts)
}

/// Judges a well-formed path: "certificate by certificate, 8 before 9; then
/// 10 or 0".
pub fn judge(path: &Path) -> Answer {
    let n = path.certificates.len();
    let mut counters = Counters::start(path);
    let mut graph = Some(Graph::start());
    for (place, certificate) in (1..).zip(&path.certificates) {
        let any_counts = counters.any_counts(certificate, place == n);
        graph = after_policies(graph, certificate, any_counts);
        if counters.explicit_policy == 0 && graph.is_none() {
            return Answer::stopped(NO_GRAPH, place, counters.numbers());
        }
        if place < n {
            if certificate.mapping_names_any() {
                return Answer::stopped(MAPS_ANY, place, counters.numbers());
            }
            let mapping_allowed = counters.policy_mapping > 0;
            graph =
                graph.and_then(|graph| graph.map_policies(&certificate.mappings, mapping_allowed));
            counters.next(certificate);
        } else {
            counters.end(certificate);
        }
    }
    let (counts, authority) = match &graph {
        Some(graph) => (graph.counts(), graph.authority_set()),
        None => ([0; DEPTHS], Vec::new()),
    };
    let user = user_set(path, &authority);
    let (number, place) =
        if counters.explicit_policy == 0 && user.is_empty() { (NO_USER_POLICY, n) } else { (0, 0) };
    Answer { number, place, counts, counters: counters.numbers(), authority, user }
}

#[cfg(test)]
mod tests {
    use super::*;
    use crate::known;
    use crate::path::MAX_CERTIFICATES;
    use crate::random::{doubling, full, Random, FULL_KINDS};

    #[test]
    fn known_paths() {
        for row in known::rows() {
            assert_eq!(judge(&row.path), row.answer, "{}", row.name);
        }
    }

    #[test]
    fn full_paths_stand_at_every_depth() {
        let mut random = Random::new(3);
        for n in 2..=MAX_CERTIFICATES {
            for kind in FULL_KINDS {
                let answer = judge(&full(kind, n, &mut random));
                assert_eq!((answer.number, answer.place), (0, 0), "{kind:?} {n}");
                assert!(answer.counts[..=n].iter().all(|&count| count > 0), "{kind:?} {n}");
                assert!(!answer.user.is_empty(), "{kind:?} {n}");
            }
        }
    }

    #[test]
    fn case_b_at_its_longest() {
        let answer = judge(&doubling(MAX_CERTIFICATES));
        assert_eq!((answer.counts[0], &answer.counts[1..]), (1, &[2; MAX_CERTIFICATES][..]));
        assert_eq!((answer.authority, answer.user), (vec![21, 22], vec![21, 22]));
    }

    /// "Lowering the counters before the mappings are processed": with
    /// inhibitPolicyMapping 0 in the first certificate its own mapping holds, and
    /// policy_mapping is 0 after it.
    #[test]
    fn skip_values_work_from_the_next_certificate_on() {
        let mut path = known::rows()[0].path.clone();
        path.certificates[0].inhibit_policy_mapping = Some(0);
        let expected = Answer { counters: [1, 0, 2], ..known::rows()[0].answer.clone() };
        assert_eq!(judge(&path), expected);
    }
}
