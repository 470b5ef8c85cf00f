//! The three counters of RFC 5280 6.1.2 (d) to (f).

use crate::answer::COUNTERS;
use crate::path::{Certificate, Path};

/// explicit_policy, policy_mapping and inhibit_anyPolicy.
pub struct Counters {
    pub explicit_policy: usize,
    pub policy_mapping: usize,
    pub inhibit_any_policy: usize,
}

impl Counters {
    /// "each of explicit_policy, policy_mapping and inhibit_anyPolicy is 0 if
    /// its flag is set, else n+1"
    pub fn start(path: &Path) -> Counters {
        let first = |flag: bool| if flag { 0 } else { path.certificates.len() + 1 };
        Counters {
            explicit_policy: first(path.explicit_policy),
            policy_mapping: first(path.mapping_inhibit),
            inhibit_any_policy: first(path.any_policy_inhibit),
        }
    }

    /// "unless self-issued, each counter above 0 falls by 1. Then each present
    /// skip value below its counter replaces it."
    pub fn next(&mut self, certificate: &Certificate) {
        let lower = |counter: &mut usize, skip: Option<u8>| {
            if !certificate.self_issued {
                *counter = counter.saturating_sub(1);
            }
            if let Some(skip) = skip {
                *counter = (*counter).min(usize::from(skip));
            }
        };
        lower(&mut self.explicit_policy, certificate.require_explicit_policy);
        lower(&mut self.policy_mapping, certificate.inhibit_policy_mapping);
        lower(&mut self.inhibit_any_policy, certificate.inhibit_any_policy);
    }

    /// "At the end: explicit_policy falls by 1 if above 0; if certificate n
    /// has requireExplicitPolicy 0, it becomes 0."
    pub fn end(&mut self, last: &Certificate) {
        self.explicit_policy = self.explicit_policy.saturating_sub(1);
        if last.require_explicit_policy == Some(0) {
            self.explicit_policy = 0;
        }
    }

    /// As they stand now, "in the order explicit, mapping, any" (document 02,
    /// Seven).
    pub fn numbers(&self) -> [u16; COUNTERS] {
        [self.explicit_policy, self.policy_mapping, self.inhibit_any_policy]
            .map(|counter| counter as u16)
    }

    /// "if anyPolicy is listed and (inhibit_anyPolicy > 0, or i < n and the
    /// certificate is self-issued)"
    pub fn any_counts(&self, certificate: &Certificate, is_last: bool) -> bool {
        certificate.policies.contains(&crate::path::ANY)
            && (self.inhibit_any_policy > 0 || (!is_last && certificate.self_issued))
    }
}

#[cfg(test)]
mod tests {
    use super::*;

    /// A path of so many certificates with the given flags, mapping inhibit first.
    fn flagged(
        n: usize,
        [mapping_inhibit, explicit_policy, any_policy_inhibit]: [bool; 3],
    ) -> Path {
        let certificates = vec![Certificate::default(); n];
        Path {
            mapping_inhibit,
            explicit_policy,
            any_policy_inhibit,
            certificates,
            ..Path::default()
        }
    }

    fn certificate(self_issued: bool, skips: [Option<u8>; COUNTERS]) -> Certificate {
        let [require_explicit_policy, inhibit_policy_mapping, inhibit_any_policy] = skips;
        Certificate {
            self_issued,
            require_explicit_policy,
            inhibit_policy_mapping,
            inhibit_any_policy,
            ..Certificate::default()
        }
    }

    #[test]
    fn each_flag_has_its_counter() {
        let start = |flags| Counters::start(&flagged(4, flags)).numbers();
        assert_eq!(start([false, false, false]), [5, 5, 5]);
        assert_eq!(start([true, false, false]), [5, 0, 5]);
        assert_eq!(start([false, true, false]), [0, 5, 5]);
        assert_eq!(start([false, false, true]), [5, 5, 0]);
    }

    /// Each skip value has its counter: one below it, one at it, one above it, and
    /// 255, which none reaches.
    #[test]
    fn the_fall_comes_before_the_skip_values() {
        for (self_issued, [explicit, mapping, any], expected) in [
            (false, [None, None, None], [4, 4, 4]),
            (true, [None, None, None], [5, 5, 5]),
            (false, [Some(3), Some(4), Some(5)], [3, 4, 4]),
            (true, [Some(4), Some(5), Some(6)], [4, 5, 5]),
            (false, [None, Some(0), None], [4, 0, 4]),
            (true, [None, None, Some(1)], [5, 5, 1]),
            (false, [Some(255), Some(255), Some(255)], [4, 4, 4]),
        ] {
            let mut counters = Counters::start(&flagged(4, [false; 3]));
            counters.next(&certificate(self_issued, [explicit, mapping, any]));
            assert_eq!(counters.numbers(), expected);
        }
        let mut counters = Counters::start(&flagged(4, [true; 3]));
        counters.next(&certificate(false, [Some(2); COUNTERS]));
        assert_eq!(counters.numbers(), [0, 0, 0]);
    }

    /// explicit_policy alone, by 1 or to 0, self-issued or not.
    #[test]
    fn the_end_rules() {
        for self_issued in [false, true] {
            for (skip, explicit) in [(None, 4), (Some(0), 0), (Some(1), 4), (Some(255), 4)] {
                let mut counters = Counters::start(&flagged(4, [false; 3]));
                counters.end(&certificate(self_issued, [skip; COUNTERS]));
                assert_eq!(counters.numbers(), [explicit, 5, 5]);
            }
            let mut counters = Counters::start(&flagged(4, [false, true, false]));
            counters.end(&certificate(self_issued, [None; COUNTERS]));
            assert_eq!(counters.numbers(), [0, 5, 5]);
        }
    }
}
