//! The policy tree of RFC 5280 before amendment, as document 01 writes it out
//! for demand 3, and the judge that builds it.

use std::collections::HashSet;

use crate::answer::{Answer, DEPTHS, MAPS_ANY, NO_GRAPH, NO_USER_POLICY};
use crate::counters::Counters;
use crate::path::{Certificate, Path, ANY};

/// The usual cap on the nodes made for one path.
pub const CAP: usize = 20_000;

/// The tree would need more nodes than its cap.
struct OverCap;

/// A node: "Each other node has one parent; a depth may hold a policy in many
/// nodes."
struct Node {
    depth: usize,
    policy: u16,
    expected: Vec<u16>,
    parent: usize,
    standing: bool,
}

/// All nodes ever made, a parent before its children; node 0 is the root.
struct Tree {
    nodes: Vec<Node>,
    cap: usize,
}

impl Tree {
    /// "It starts as one root, anyPolicy, expecting {anyPolicy}."
    fn start(cap: usize) -> Tree {
        let root = Node { depth: 0, policy: ANY, expected: vec![ANY], parent: 0, standing: true };
        Tree { nodes: vec![root], cap }
    }

    /// "without its root the tree is gone"
    fn stands(&self) -> bool {
        self.nodes[0].standing
    }

    /// The standing nodes of one depth.
    fn at(&self, depth: usize) -> Vec<usize> {
        (0..self.nodes.len())
            .filter(|&node| self.nodes[node].standing && self.nodes[node].depth == depth)
            .collect()
    }

    /// The standing nodes of one depth that have the policy.
    fn named(&self, depth: usize, policy: u16) -> Vec<usize> {
        self.at(depth).into_iter().filter(|&node| self.nodes[node].policy == policy).collect()
    }

    /// The standing nodes other than the root that lie directly under an
    /// anyPolicy node.
    fn under_any(&self) -> Vec<usize> {
        (1..self.nodes.len())
            .filter(|&node| self.nodes[node].standing)
            .filter(|&node| self.nodes[self.nodes[node].parent].policy == ANY)
            .collect()
    }

    /// The policies of the standing nodes other than anyPolicy that lie
    /// directly under anyPolicy, ascending and without repeats.
    fn policies_under_any(&self) -> Vec<u16> {
        let nodes = self.under_any().into_iter();
        sorted(nodes.map(|node| self.nodes[node].policy).filter(|&policy| policy != ANY).collect())
    }

    fn add_child(&mut self, parent: usize, policy: u16, expected: Vec<u16>) -> Result<(), OverCap> {
        if self.nodes.len() == self.cap {
            return Err(OverCap);
        }
        let depth = self.nodes[parent].depth + 1;
        self.nodes.push(Node { depth, policy, expected, parent, standing: true });
        Ok(())
    }

    /// The policies of certificate i, "where there is a tree".
    fn add_policies(
        &mut self,
        i: usize,
        policies: &[u16],
        any_counts: bool,
    ) -> Result<(), OverCap> {
        let above = self.at(i - 1);
        // "for each listed P other than anyPolicy, each depth i-1 node that
        // expects P gets a child P, expecting {P}; if none does, the depth i-1
        // anyPolicy node gets it, if there is one"
        for &policy in policies.iter().filter(|&&policy| policy != ANY) {
            let mut parents = above.clone();
            parents.retain(|&node| self.nodes[node].expected.contains(&policy));
            if parents.is_empty() {
                parents = self.named(i - 1, ANY);
            }
            for parent in parents {
                self.add_child(parent, policy, vec![policy])?;
            }
        }
        // "each depth i-1 node gets, for each policy that it expects and no
        // child of it has, a child of that policy, expecting {itself}"
        if any_counts {
            let nodes = self.at(i).into_iter().map(|node| &self.nodes[node]);
            let children: HashSet<(usize, u16)> =
                nodes.map(|node| (node.parent, node.policy)).collect();
            for parent in above {
                for policy in self.nodes[parent].expected.clone() {
                    if !children.contains(&(parent, policy)) {
                        self.add_child(parent, policy, vec![policy])?;
                    }
                }
            }
        }
        self.remove_childless(i - 1);
        Ok(())
    }

    /// The mappings of certificate i, "for each issuer policy D, where there
    /// is a tree".
    fn map_policies(
        &mut self,
        i: usize,
        mappings: &[(u16, u16)],
        mapping_allowed: bool,
    ) -> Result<(), OverCap> {
        for issuer in sorted(mappings.iter().map(|&(issuer, _)| issuer).collect()) {
            let nodes = self.named(i, issuer);
            if !mapping_allowed {
                // "If policy_mapping is 0, all depth i nodes D go, then
                // childless nodes above as before."
                for node in nodes {
                    self.nodes[node].standing = false;
                }
                self.remove_childless(i - 1);
                continue;
            }
            let own = mappings.iter().filter(|&&(own_issuer, _)| own_issuer == issuer);
            let subjects = sorted(own.map(|&(_, subject)| subject).collect());
            if !nodes.is_empty() {
                // "all depth i nodes D expect exactly D's subject policies"
                for node in nodes {
                    self.nodes[node].expected = subjects.clone();
                }
            } else if !self.named(i, ANY).is_empty() {
                // "if there is none but a depth i anyPolicy node stands, the
                // depth i-1 anyPolicy node gets a child D with those
                // expectations"
                for parent in self.named(i - 1, ANY) {
                    self.add_child(parent, issuer, subjects.clone())?;
                }
            }
        }
        Ok(())
    }

    /// Childless nodes at the given depth or less go, until none is left.
    /// Children come after their parents, so one walk from the end suffices.
    fn remove_childless(&mut self, depth: usize) {
        let mut has_child = vec![false; self.nodes.len()];
        for node in (0..self.nodes.len()).rev() {
            if self.nodes[node].depth <= depth && !has_child[node] {
                self.nodes[node].standing = false;
            }
            if self.nodes[node].standing {
                has_child[self.nodes[node].parent] = true;
            }
        }
    }

    /// The node goes, "with all below it".
    fn remove_with_all_below(&mut self, top: usize) {
        self.nodes[top].standing = false;
        for node in top + 1..self.nodes.len() {
            if !self.nodes[self.nodes[node].parent].standing {
                self.nodes[node].standing = false;
            }
        }
    }

    /// The number of different policies at each depth of the tree.
    fn counts(&self) -> [u16; DEPTHS] {
        let mut counts = [0; DEPTHS];
        for (depth, count) in counts.iter_mut().enumerate() {
            let policies = self.at(depth).into_iter().map(|node| self.nodes[node].policy).collect();
            *count = sorted(policies).len() as u16;
        }
        counts
    }

    /// The authority set: "every policy other than anyPolicy whose node's only
    /// parent is an anyPolicy node, and anyPolicy if it stands at depth n".
    fn authority_set(&self, n: usize) -> Vec<u16> {
        let mut set = self.policies_under_any();
        if !self.named(n, ANY).is_empty() {
            set.insert(0, ANY);
        }
        set
    }

    /// "the intersection of 6.1.5(g)", made when the user list is not
    /// any-policy.
    fn intersect(&mut self, n: usize, user: &[u16]) -> Result<(), OverCap> {
        // "Each node other than anyPolicy that is directly under anyPolicy and
        // not on the user list goes, with all below it."
        for node in self.under_any() {
            let policy = self.nodes[node].policy;
            if policy != ANY && !user.contains(&policy) {
                self.remove_with_all_below(node);
            }
        }
        // "If anyPolicy stands at depth n, the depth n-1 anyPolicy node gets a
        // child for each policy on the user list that no node directly under
        // anyPolicy has, and the depth n anyPolicy node goes."
        for last in self.named(n, ANY) {
            let parent = self.nodes[last].parent;
            let present = self.policies_under_any();
            for policy in sorted(user.to_vec()) {
                if !present.contains(&policy) {
                    self.add_child(parent, policy, vec![policy])?;
                }
            }
            self.nodes[last].standing = false;
        }
        // "Childless nodes at depth n-1 or less go as before."
        self.remove_childless(n - 1);
        Ok(())
    }
}

/// The same policies, ascending and without repeats.
fn sorted(mut policies: Vec<u16>) -> Vec<u16> {
    policies.sort_unstable();
    policies.dedup();
    policies
}

/// The part of certificate i before the tests.
fn take_policies(
    tree: &mut Option<Tree>,
    i: usize,
    certificate: &Certificate,
    any_counts: bool,
) -> Result<(), OverCap> {
    // "No policies: there is no tree from here on."
    if certificate.policies.is_empty() {
        *tree = None;
    }
    if let Some(standing) = tree {
        standing.add_policies(i, &certificate.policies, any_counts)?;
    }
    if tree.as_ref().is_some_and(|tree| !tree.stands()) {
        *tree = None;
    }
    Ok(())
}

/// The mappings of certificate i, for i < n.
fn take_mappings(
    tree: &mut Option<Tree>,
    i: usize,
    certificate: &Certificate,
    mapping_allowed: bool,
) -> Result<(), OverCap> {
    if let Some(standing) = tree {
        standing.map_policies(i, &certificate.mappings, mapping_allowed)?;
    }
    if tree.as_ref().is_some_and(|tree| !tree.stands()) {
        *tree = None;
    }
    Ok(())
}

fn judge_within(path: &Path, cap: usize) -> Result<Answer, OverCap> {
    let n = path.certificates.len();
    let mut counters = Counters::start(path);
    let mut tree = Some(Tree::start(cap));
    for (place, certificate) in (1..).zip(&path.certificates) {
        let any_counts = counters.any_counts(certificate, place == n);
        take_policies(&mut tree, place, certificate, any_counts)?;
        // "Then, tree or no tree, test 8, which asks for the tree in place of
        // the graph, and then test 9", which "RFC 5280 makes [...] only for
        // certificates before the last".
        if counters.explicit_policy == 0 && tree.is_none() {
            return Ok(Answer::stopped(NO_GRAPH, place, counters.numbers()));
        }
        if place < n {
            if certificate.mapping_names_any() {
                return Ok(Answer::stopped(MAPS_ANY, place, counters.numbers()));
            }
            take_mappings(&mut tree, place, certificate, counters.policy_mapping > 0)?;
            counters.next(certificate);
        } else {
            counters.end(certificate);
        }
    }
    let mut answer = Answer { counters: counters.numbers(), ..Answer::default() };
    if let Some(tree) = &mut tree {
        // "The counts and, by the authority rule above, the authority set are
        // read off it."
        answer.counts = tree.counts();
        answer.authority = tree.authority_set(n);
        // "The user set is the policies other than anyPolicy then directly
        // under anyPolicy, or the authority set if the user list is
        // any-policy."
        if path.user_is_any() {
            answer.user = answer.authority.clone();
        } else {
            tree.intersect(n, &path.user)?;
            answer.user = tree.policies_under_any();
        }
    }
    // "The verdict is 10 at n if explicit_policy is 0 and no tree is left,
    // else 0."
    if counters.explicit_policy == 0 && !tree.is_some_and(|tree| tree.stands()) {
        answer.number = NO_USER_POLICY;
        answer.place = n;
    }
    Ok(answer)
}

/// Judges a well-formed path by the tree. None if more than `cap` nodes would
/// be made, the root and nodes later removed included.
pub fn judge(path: &Path, cap: usize) -> Option<Answer> {
    judge_within(path, cap).ok()
}

#[cfg(test)]
mod tests {
    use super::*;
    use crate::known;
    use crate::path::MAX_CERTIFICATES;
    use crate::random::{doubling, full, Full, Random};

    #[test]
    fn known_paths() {
        for row in known::rows() {
            assert_eq!(judge(&row.path, CAP), Some(row.answer), "{}", row.name);
        }
    }

    /// Case B: 1 + 2 + 4 + ... + 2^n nodes.
    #[test]
    fn the_cap_counts_nodes() {
        for n in 2..=MAX_CERTIFICATES {
            let nodes = (1 << (n + 1)) - 1;
            assert!(judge(&doubling(n), nodes).is_some());
            assert!(judge(&doubling(n), nodes - 1).is_none());
        }
    }

    #[test]
    fn a_tree_that_grows_at_each_depth_is_over_the_cap() {
        let path = full(Full::Square, MAX_CERTIFICATES, &mut Random::new(4));
        assert!(judge(&path, CAP).is_none());
    }
}
