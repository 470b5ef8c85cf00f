//! The limits, which a sheet's fields cannot break: every n and every count that
//! they can say.

use reference::lent::ENOUGH;
use reference::path::{Certificate, Path, MAX_CERTIFICATES, MAX_LIST};
use reference::sheet;

use crate::run::Run;
use crate::DAMAGE_CAP;

/// Two certificates with two policies and a pair each.
fn short_path() -> Path {
    let certificate =
        Certificate { policies: vec![5, 6], mappings: vec![(5, 6)], ..Certificate::default() };
    Path { user: vec![5], certificates: vec![certificate; 2], ..Path::default() }
}

/// A path for every n, and for every count of the user list and of each list of
/// each certificate, all else being short.
fn counted_paths() -> Vec<Path> {
    let mut paths = Vec::new();
    for n in 1..=MAX_CERTIFICATES {
        let mut path = short_path();
        path.certificates = vec![path.certificates[0].clone(); n];
        paths.push(path);
    }
    for count in 0..=MAX_LIST {
        let list: Vec<u16> = (5..).take(count).collect();
        paths.push(Path { user: list.clone(), ..short_path() });
        for place in 0..2 {
            let mut path = short_path();
            path.certificates[place].policies = list.clone();
            paths.push(path);
            let mut path = short_path();
            path.certificates[place].mappings = list.iter().map(|&issuer| (issuer, 6)).collect();
            paths.push(path);
        }
    }
    paths
}

impl Run {
    /// Every n and every count alone: such a sheet gets a verdict, and every cut
    /// of it is answered 1.
    pub fn every_count(&mut self) {
        for path in counted_paths() {
            let sheet = sheet::write(&path);
            self.all_lengths(&sheet);
            let answer = self.judge(&sheet, ENOUGH, DAMAGE_CAP);
            let what = || format!("a count that a field can say is answered {}", answer.number);
            self.check(!answer.is_refusal(), what, &sheet);
            for length in 0..sheet.len() {
                let cut = &sheet[..length];
                self.once(cut, DAMAGE_CAP);
                let answer = self.judge(cut, ENOUGH, DAMAGE_CAP);
                let what = || format!("a cut is answered {}", answer.number);
                self.check(answer.number == sheet::ENDS_EARLY, what, cut);
            }
        }
    }
}
