//! Everyday paths: short, with few policies in each certificate, and a user
//! who asks for one of them.

use crate::path::{pairs, Certificate, Path};

/// The shape of an everyday path.
#[derive(Clone, Copy, Debug)]
pub struct Everyday {
    /// The number of certificates.
    pub n: usize,
    /// The number of policies in each certificate.
    pub policies: usize,
    /// Whether each certificate before the last maps its policies to those of
    /// the next, one to one. Otherwise all certificates list the same ones.
    pub mapped: bool,
}

/// Two to four certificates, one, two or four policies, without mappings and
/// with them.
pub fn shapes() -> Vec<Everyday> {
    let mut shapes = Vec::new();
    for n in 2..=4 {
        for policies in [1, 2, 4] {
            shapes.extend([false, true].map(|mapped| Everyday { n, policies, mapped }));
        }
    }
    shapes
}

impl Everyday {
    /// The path of this shape: an explicit policy is required, and the user
    /// asks for the last policy of the first certificate. It is answered 0.
    pub fn path(&self) -> Path {
        let lists: Vec<Vec<u16>> = (1..=self.n as u16)
            .map(|place| {
                let hundred = if self.mapped { 100 * place } else { 100 };
                (1..=self.policies as u16).map(|policy| hundred + policy).collect()
            })
            .collect();
        if self.mapped {
            mapped(&lists)
        } else {
            listed(&lists)
        }
    }
}

/// The path whose certificates have the given policies and no pairs.
fn listed(lists: &[Vec<u16>]) -> Path {
    let certificates = lists
        .iter()
        .map(|policies| Certificate { policies: policies.clone(), ..Certificate::default() });
    Path {
        explicit_policy: true,
        user: vec![lists[0][lists[0].len() - 1]],
        certificates: certificates.collect(),
        ..Path::default()
    }
}

/// The same, with each policy of a certificate before the last mapped to the
/// policy at its place in the next list.
pub fn mapped(lists: &[Vec<u16>]) -> Path {
    let mut path = listed(lists);
    for (certificate, next) in path.certificates.iter_mut().zip(&lists[1..]) {
        certificate.mappings = pairs(&certificate.policies, next);
    }
    path
}

#[cfg(test)]
mod tests {
    use super::*;
    use crate::{graph, sheet, tree};

    #[test]
    fn the_shapes_are_as_they_say() {
        assert_eq!(shapes().len(), 18);
        for shape in shapes() {
            let path = shape.path();
            assert_eq!(sheet::read(&sheet::write(&path)), Ok(path.clone()), "{shape:?}");
            assert_eq!((path.certificates.len(), path.user.len()), (shape.n, 1), "{shape:?}");
            let (last, before) = path.certificates.split_last().unwrap();
            let pairs = if shape.mapped { shape.policies } else { 0 };
            assert!(before.iter().all(|certificate| certificate.mappings.len() == pairs));
            assert_eq!((last.policies.len(), last.mappings.len()), (shape.policies, 0));
        }
    }

    #[test]
    fn the_user_gets_the_policy_asked_for() {
        for shape in shapes() {
            let path = shape.path();
            let answer = graph::judge(&path);
            assert_eq!((answer.number, answer.place), (0, 0), "{shape:?}");
            let at_each_depth = vec![shape.policies as u16; shape.n];
            assert_eq!(answer.counts[1..=shape.n], at_each_depth, "{shape:?}");
            assert_eq!(answer.authority, path.certificates[0].policies, "{shape:?}");
            assert_eq!(answer.user, path.user, "{shape:?}");
            assert_eq!(tree::judge(&path, tree::CAP), Some(answer), "{shape:?}");
        }
    }

    #[test]
    fn each_policy_is_mapped_to_one_of_the_next_certificate() {
        for shape in shapes().iter().filter(|shape| shape.mapped) {
            for two in shape.path().certificates.windows(2) {
                let (issuers, subjects): (Vec<u16>, Vec<u16>) =
                    two[0].mappings.iter().copied().unzip();
                assert_eq!(issuers, two[0].policies);
                assert_eq!(subjects, two[1].policies);
            }
        }
    }
}
