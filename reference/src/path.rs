//! Policies, certificates and paths.

/// "1 is anyPolicy."
pub const ANY: u16 = 1;

/// "n up to 15" (document 02, Four)
pub const MAX_CERTIFICATES: usize = 15;

/// "up to 31 user policies, policies and pairs" (document 02, Four)
pub const MAX_LIST: usize = 31;

/// "The start inputs are three flags (mapping inhibit, explicit policy,
/// anyPolicy inhibit) and a user list"; then the certificates, "numbered from
/// the one the trust anchor issued".
#[derive(Clone, Debug, Default, PartialEq, Eq)]
pub struct Path {
    pub mapping_inhibit: bool,
    pub explicit_policy: bool,
    pub any_policy_inhibit: bool,
    pub user: Vec<u16>,
    pub certificates: Vec<Certificate>,
}

/// "A certificate has: a self-issued flag; policies; mapping pairs (issuer
/// policy, subject policy); and three skip values", each absent or a number.
#[derive(Clone, Debug, Default, PartialEq, Eq)]
pub struct Certificate {
    pub self_issued: bool,
    pub policies: Vec<u16>,
    pub mappings: Vec<(u16, u16)>,
    pub require_explicit_policy: Option<u8>,
    pub inhibit_policy_mapping: Option<u8>,
    pub inhibit_any_policy: Option<u8>,
}

impl Path {
    /// "A list that contains 1 means any-policy, whatever else it names."
    pub fn user_is_any(&self) -> bool {
        self.user.contains(&ANY)
    }

    /// Whether a mapping of certificate n names anyPolicy, which no test asks.
    pub fn last_mapping_names_any(&self) -> bool {
        self.certificates.last().is_some_and(Certificate::mapping_names_any)
    }
}

impl Certificate {
    /// Test 9, which is made for i < n: "a mapping of certificate i names
    /// anyPolicy".
    pub fn mapping_names_any(&self) -> bool {
        self.mappings.iter().any(|&(issuer, subject)| issuer == ANY || subject == ANY)
    }
}

/// Mapping pairs: each issuer policy with the subject policy at its place.
pub fn pairs(issuers: &[u16], subjects: &[u16]) -> Vec<(u16, u16)> {
    issuers.iter().copied().zip(subjects.iter().copied()).collect()
}

#[cfg(test)]
mod tests {
    use crate::{answer, extensions, record, sheet};

    /// The figures that follow from the limits, and the number of counters, as
    /// request Four and include/judge.h write them.
    #[test]
    fn figures_of_the_limits() {
        assert_eq!((answer::PLACES, answer::DEPTHS, sheet::LONGEST), (899, 16, 2_929));
        assert_eq!(answer::COUNTERS, 3);
        assert_eq!((record::LONGEST, extensions::PLACES), (1_521, 99));
    }
}
