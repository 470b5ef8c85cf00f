//! What a certificate's extensions are to say, and the values that say it.

use crate::der::{CONTEXT_0, CONTEXT_1, INTEGER};
use crate::tlv::Tlv;

/// The content octets of an identifier.
pub type Identifier = Vec<u8>;

/// The content octets of an integer.
pub type Integer = Vec<u8>;

/// The extensions; a list with nothing in it is absent.
#[derive(Clone, Debug, Default)]
pub struct Draft {
    pub policies: Vec<PolicyInformation>,
    pub mappings: Vec<(Identifier, Identifier)>,
    pub constraints: Option<PolicyConstraints>,
    pub inhibit_any_policy: Option<Integer>,
}

/// A policy and its qualifiers, of which there may be none.
#[derive(Clone, Debug, Default)]
pub struct PolicyInformation {
    pub identifier: Identifier,
    pub qualifiers: Vec<Tlv>,
}

/// The skip values of a policyConstraints.
#[derive(Clone, Debug, Default)]
pub struct PolicyConstraints {
    pub require_explicit_policy: Option<Integer>,
    pub inhibit_policy_mapping: Option<Integer>,
}

impl Draft {
    /// Two policies, the pair of them, and both constraints.
    pub fn everyday(first: &[u8], second: &[u8]) -> Draft {
        Draft {
            policies: [first, second].map(PolicyInformation::new).to_vec(),
            mappings: vec![(first.to_vec(), second.to_vec())],
            constraints: Some(PolicyConstraints {
                require_explicit_policy: Some(vec![0]),
                inhibit_policy_mapping: Some(vec![1]),
            }),
            inhibit_any_policy: None,
        }
    }

    /// The values of certificatePolicies, policyMappings, policyConstraints and
    /// inhibitAnyPolicy, as far as they are present.
    pub fn values(&self) -> [Option<Tlv>; 4] {
        [
            list(self.policies.iter().map(PolicyInformation::value)),
            list(self.mappings.iter().map(pair)),
            self.constraints.as_ref().map(PolicyConstraints::value),
            self.inhibit_any_policy.as_ref().map(|integer| Tlv::octets(INTEGER, integer)),
        ]
    }

    /// The octets of the values, none of an absent one.
    pub fn encode(&self) -> [Vec<u8>; 4] {
        self.values().map(|value| value.map_or(Vec::new(), |value| value.encode()))
    }
}

/// The SEQUENCE of elements, if there are any.
fn list(elements: impl Iterator<Item = Tlv>) -> Option<Tlv> {
    let elements: Vec<Tlv> = elements.collect();
    (!elements.is_empty()).then(|| Tlv::sequence(elements))
}

/// A mapping pair, the issuer first.
fn pair((issuer, subject): &(Identifier, Identifier)) -> Tlv {
    Tlv::sequence(vec![Tlv::identifier(issuer), Tlv::identifier(subject)])
}

impl PolicyInformation {
    /// A policy without qualifiers.
    pub fn new(identifier: &[u8]) -> PolicyInformation {
        PolicyInformation { identifier: identifier.to_vec(), qualifiers: Vec::new() }
    }

    fn value(&self) -> Tlv {
        let mut fields = vec![Tlv::identifier(&self.identifier)];
        fields.extend(list(self.qualifiers.iter().cloned()));
        Tlv::sequence(fields)
    }
}

impl PolicyConstraints {
    fn value(&self) -> Tlv {
        let explicit = self.require_explicit_policy.iter().map(|skip| Tlv::octets(CONTEXT_0, skip));
        let mapping = self.inhibit_policy_mapping.iter().map(|skip| Tlv::octets(CONTEXT_1, skip));
        Tlv::sequence(explicit.chain(mapping).collect())
    }
}
