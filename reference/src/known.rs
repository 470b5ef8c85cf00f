//! The paths with known outcomes of document 01, those of document 02's request
//! Three, which has case K anew, and those of its requests Six and Seven.

use crate::answer::{Answer, COUNTERS, DEPTHS};
use crate::path::{Certificate, Path, ANY, MAX_CERTIFICATES, MAX_LIST};

/// "E's sheet, whole, hex: 11 02 00 1E 00 1F 42 00 02 00."
pub const E_SHEET: [u8; 10] = [0x11, 0x02, 0x00, 0x1E, 0x00, 0x1F, 0x42, 0x00, 0x02, 0x00];

/// The sheet of one certificate without policies that maps 5 to 6 twice, whole.
/// The second subject ends with the last byte but one.
pub const REPEATED_PAIR_SHEET: [u8; 14] =
    [0x11, 0x01, 0x00, 0x01, 0x22, 0x00, 0x05, 0x00, 0x06, 0x00, 0x05, 0x00, 0x06, 0x00];

/// A row's name, its path and the answer written beside it. The counters are
/// worked out by hand.
pub struct Known {
    pub name: &'static str,
    pub path: Path,
    pub answer: Answer,
}

/// A row that is refused: its name, its path and the number.
pub struct Refused {
    pub name: &'static str,
    pub path: Path,
    pub number: u8,
    /// The bytes of the path's sheet to the end of the field at fault: with
    /// these and any more of them it gets the number, with fewer 1.
    pub bytes: usize,
}

/// A certificate with policies and pairs and nothing else.
fn certificate(policies: &[u16], mappings: &[(u16, u16)]) -> Certificate {
    Certificate {
        policies: policies.to_vec(),
        mappings: mappings.to_vec(),
        ..Certificate::default()
    }
}

/// The certificate with skip values, requireExplicitPolicy, inhibitPolicyMapping
/// and inhibitAnyPolicy.
fn skipping(certificate: &Certificate, skips: [Option<u8>; COUNTERS]) -> Certificate {
    let [require_explicit_policy, inhibit_policy_mapping, inhibit_any_policy] = skips;
    Certificate {
        require_explicit_policy,
        inhibit_policy_mapping,
        inhibit_any_policy,
        ..certificate.clone()
    }
}

/// The certificate, self-issued.
fn self_issued(certificate: &Certificate) -> Certificate {
    Certificate { self_issued: true, ..certificate.clone() }
}

/// "user any-policy and flags clear unless said"
fn path(certificates: Vec<Certificate>) -> Path {
    Path { user: vec![ANY], certificates, ..Path::default() }
}

/// An answer with the counts that the row lists, zeros after them.
fn answer(number: u8, place: usize, counts: &[u16], authority: &[u16], user: &[u16]) -> Answer {
    let mut answer = Answer::bare(number, place);
    answer.counts[..counts.len()].copy_from_slice(counts);
    Answer { authority: authority.to_vec(), user: user.to_vec(), ..answer }
}

/// A row whose answer has these counters.
fn row(name: &'static str, path: Path, answer: Answer, counters: [u16; COUNTERS]) -> Known {
    Known { name, path, answer: Answer { counters, ..answer } }
}

/// Rows A to M in order, each form of a row on its own; then those of test 9,
/// made only before the last certificate, those of pairs that do not repeat, and
/// those of the counters.
pub fn rows() -> Vec<Known> {
    let mut rows = paper_rows();
    rows.extend(counter_rows());
    rows
}

/// All of them but those of the counters.
fn paper_rows() -> Vec<Known> {
    let square = [(21, 21), (21, 22), (22, 21), (22, 22)];
    let a = path(vec![
        certificate(&[11, 12, 15], &[(11, 13), (11, 14)]),
        certificate(&[12, 13, 16], &[]),
    ]);
    let b = path(vec![
        certificate(&[21, 22], &square),
        certificate(&[21, 22], &square),
        certificate(&[21, 22], &[]),
    ]);
    let c = path(vec![certificate(&[], &[])]);
    let d = Path { explicit_policy: true, ..c.clone() };
    let e = Path { user: vec![30, 31], ..path(vec![certificate(&[ANY], &[])]) };
    let f = Path { any_policy_inhibit: true, ..e.clone() };
    let g_other = Path {
        any_policy_inhibit: true,
        ..path(vec![certificate(&[ANY], &[]), certificate(&[40], &[])])
    };
    let mut g_self = g_other.clone();
    g_self.certificates[0].self_issued = true;
    let h_50 = Path {
        explicit_policy: true,
        user: vec![50],
        ..path(vec![certificate(&[ANY], &[(50, 51)]), certificate(&[51], &[])])
    };
    let h_51 = Path { user: vec![51], ..h_50.clone() };
    let i_50 = Path { mapping_inhibit: true, ..h_50.clone() };
    let i_51 = Path { mapping_inhibit: true, ..h_51.clone() };
    let j = Path {
        explicit_policy: true,
        mapping_inhibit: true,
        ..path(vec![certificate(&[60], &[(60, 61)]), certificate(&[60, 61], &[])])
    };
    let k = path(vec![certificate(&[70], &[(ANY, 71)])]);
    let require =
        |skip| Certificate { require_explicit_policy: Some(skip), ..Certificate::default() };
    let l_0 = path(vec![require(0)]);
    let l_1 = path(vec![require(1)]);
    let m = path(vec![Certificate { policies: vec![80], ..require(1) }, certificate(&[], &[])]);

    let (sealed, maps) = (certificate(&[70], &[]), certificate(&[70], &[(ANY, 71)]));
    let first_maps = path(vec![maps.clone(), sealed.clone()]);
    let first_to = path(vec![certificate(&[70], &[(70, ANY)]), sealed.clone()]);
    let both_map = path(vec![maps.clone(), maps.clone()]);
    let second_maps = path(vec![sealed.clone(), maps, sealed]);
    let last_maps = Path {
        mapping_inhibit: true,
        ..path(vec![certificate(&[ANY], &[]), certificate(&[ANY], &[(ANY, 71)])])
    };
    let last_to = path(vec![certificate(&[ANY], &[]), certificate(&[ANY], &[(71, ANY)])]);
    let only_to = path(vec![certificate(&[70], &[(71, ANY)])]);

    let one_issuer =
        path(vec![certificate(&[90], &[(90, 91), (90, 92)]), certificate(&[91, 92], &[])]);
    let one_subject =
        path(vec![certificate(&[90, 92], &[(90, 91), (92, 91)]), certificate(&[91], &[])]);
    let exchanged =
        path(vec![certificate(&[90, 91], &[(90, 91), (91, 90)]), certificate(&[90], &[])]);
    let in_three = path(vec![
        certificate(&[90], &[(90, 91)]),
        certificate(&[91], &[(90, 91)]),
        certificate(&[91], &[(90, 91)]),
    ]);

    vec![
        row("A", a, answer(0, 0, &[1, 2, 2], &[11, 12], &[11, 12]), [1, 2, 2]),
        row("B", b, answer(0, 0, &[1, 2, 2, 2], &[21, 22], &[21, 22]), [1, 2, 2]),
        row("C", c, answer(0, 0, &[], &[], &[]), [1, 2, 2]),
        row("D", d, answer(8, 1, &[], &[], &[]), [0, 2, 2]),
        row("E", e, answer(0, 0, &[1, 1], &[ANY], &[30, 31]), [1, 2, 2]),
        row("F", f, answer(0, 0, &[], &[], &[]), [1, 2, 0]),
        row("G self-issued", g_self, answer(0, 0, &[1, 1, 1], &[40], &[40]), [2, 3, 0]),
        row("G not self-issued", g_other, answer(0, 0, &[], &[], &[]), [1, 2, 0]),
        row("H user 50", h_50, answer(0, 0, &[1, 1, 1], &[50], &[50]), [0, 2, 2]),
        row("H user 51", h_51, answer(10, 2, &[1, 1, 1], &[50], &[]), [0, 2, 2]),
        row("I user 50", i_50, answer(10, 2, &[1, 1, 1], &[51], &[]), [0, 0, 2]),
        row("I user 51", i_51, answer(0, 0, &[1, 1, 1], &[51], &[51]), [0, 0, 2]),
        row("J", j, answer(8, 2, &[], &[], &[]), [0, 0, 2]),
        row("K", k, answer(0, 0, &[1, 1], &[70], &[70]), [1, 2, 2]),
        row("L requireExplicitPolicy 0", l_0, answer(10, 1, &[], &[], &[]), [0, 2, 2]),
        row("L requireExplicitPolicy 1", l_1, answer(0, 0, &[], &[], &[]), [1, 2, 2]),
        row("M", m, answer(10, 2, &[], &[], &[]), [0, 2, 2]),
        row("9 of the first alone", first_maps, answer(9, 1, &[], &[], &[]), [3, 3, 3]),
        row("9 of the first, to anyPolicy", first_to, answer(9, 1, &[], &[], &[]), [3, 3, 3]),
        row(
            "9 where the last maps anyPolicy too",
            both_map,
            answer(9, 1, &[], &[], &[]),
            [3, 3, 3],
        ),
        row("9 of the last but one of three", second_maps, answer(9, 2, &[], &[], &[]), [3, 3, 3]),
        row(
            "the last maps anyPolicy",
            last_maps,
            answer(0, 0, &[1, 1, 1], &[ANY], &[ANY]),
            [1, 0, 2],
        ),
        row(
            "the last maps to anyPolicy",
            last_to,
            answer(0, 0, &[1, 1, 1], &[ANY], &[ANY]),
            [1, 2, 2],
        ),
        row(
            "the only one maps to anyPolicy",
            only_to,
            answer(0, 0, &[1, 1], &[70], &[70]),
            [1, 2, 2],
        ),
        row("pairs of one issuer", one_issuer, answer(0, 0, &[1, 1, 2], &[90], &[90]), [1, 2, 2]),
        row(
            "pairs of one subject",
            one_subject,
            answer(0, 0, &[1, 2, 1], &[90, 92], &[90, 92]),
            [1, 2, 2],
        ),
        row(
            "a pair and its exchange",
            exchanged,
            answer(0, 0, &[1, 1, 1], &[91], &[91]),
            [1, 2, 2],
        ),
        row(
            "a pair in each of three",
            in_three,
            answer(0, 0, &[1, 1, 1, 1], &[90], &[90]),
            [1, 2, 2],
        ),
    ]
}

/// The rows of request Seven: "before test 8 or 9 fails, or after the end rules for
/// 0 and 10". Beside each stands how the counters come about, explicit, mapping and
/// any: at the start, after each certificate before the one that decides, and after
/// the end rules where it gets so far.
fn counter_rows() -> Vec<Known> {
    let (sealed, none) = (certificate(&[90], &[]), certificate(&[], &[]));
    let (maps, maps_to) = (certificate(&[90], &[(ANY, 71)]), certificate(&[90], &[(71, ANY)]));
    let zeros = [Some(0); COUNTERS];
    let explicit = |path| Path { explicit_policy: true, ..path };
    let mapping = |path| Path { mapping_inhibit: true, ..path };
    let any = |path| Path { any_policy_inhibit: true, ..path };
    let user = |list: &[u16], path| Path { user: list.to_vec(), ..path };
    let stands = |n: usize| answer(0, 0, &[1; DEPTHS][..=n], &[90], &[90]);
    let empty = |number, place, n: usize| answer(number, place, &[1; DEPTHS][..=n], &[90], &[]);
    let stops = |number, place| answer(number, place, &[], &[], &[]);

    // 0 4 4, 0 2 3. The second's own fall would give 0 1 2, its skip values 0 0 0.
    let eight = explicit(path(vec![
        skipping(&sealed, [None, Some(2), None]),
        skipping(&none, [None, Some(0), Some(0)]),
        sealed.clone(),
    ]));
    // 0 3 0
    let eight_above_0 =
        any(explicit(path(vec![skipping(&none, [Some(3), None, None]), sealed.clone()])));
    // 3 3 3, 0 2 1
    let eight_at_the_last =
        path(vec![skipping(&sealed, [Some(0), None, Some(1)]), skipping(&none, zeros)]);
    // 4 4 4, 1 3 2, 0 2 1
    let eight_after_a_fall =
        path(vec![skipping(&sealed, [Some(1), None, Some(2)]), sealed.clone(), none]);
    // 5 5 5, 3 2 4. The second's own fall would give 2 1 3, its skip values 0 0 0.
    let nine = path(vec![
        skipping(&sealed, [Some(3), Some(2), None]),
        skipping(&maps, zeros),
        sealed.clone(),
        sealed.clone(),
    ]);
    // 3 0 3
    let nine_self_issued = mapping(path(vec![
        skipping(&self_issued(&maps_to), [None, None, Some(1)]),
        sealed.clone(),
    ]));
    // 3 3 3, 2 2 2, and at the end 1 2 2 and 0 2 2
    let last_requires_0 = path(vec![sealed.clone(), skipping(&sealed, zeros)]);
    // 4 4 4, 4 4 4, 4 4 4, and at the end 3 4 4
    let last_requires_1 = path(vec![
        self_issued(&sealed),
        self_issued(&sealed),
        skipping(&sealed, [Some(1); COUNTERS]),
    ]);
    // 3 3 3, 2 2 2, and at the end 1 2 2
    let last_self_issued = path(vec![sealed.clone(), self_issued(&sealed)]);
    // 3 3 3, 3 3 3, and at the end 2 3 3
    let all_self_issued = path(vec![self_issued(&sealed); 2]);
    // 4 4 4, 2 1 3, 2 1 3, and at the end 1 1 3
    let self_issued_skips = path(vec![
        skipping(&self_issued(&sealed), [Some(2), Some(1), Some(3)]),
        self_issued(&sealed),
        sealed.clone(),
    ]);
    // 3 3 3, 2 2 2, and at the end 1 2 2
    let greatest = path(vec![skipping(&sealed, [Some(255); COUNTERS]); 2]);
    // 3 3 3, 3 2 3, and at the end 2 2 3
    let around =
        path(vec![skipping(&self_issued(&sealed), [Some(3), Some(2), Some(4)]), sealed.clone()]);
    // 4 4 4, 3 0 1, 2 0 0, and at the end 1 0 0
    let later_greater = path(vec![
        skipping(&sealed, [None, Some(0), Some(1)]),
        skipping(&sealed, [None, Some(2), Some(2)]),
        sealed.clone(),
    ]);
    // 5 5 5, 2 1 0, 1 0 0, 0 0 0, and at the end 0 0 0
    let all_at_0 = path(vec![
        skipping(&sealed, [Some(2), Some(1), Some(0)]),
        sealed.clone(),
        sealed.clone(),
        sealed.clone(),
    ]);
    // 3 0 3, 1 0 2, and at the end 0 0 2
    let ten_by_the_fall =
        user(&[99], mapping(path(vec![skipping(&sealed, [Some(1), None, None]), sealed.clone()])));
    // 2 2 0, and at the end 1 2 0 and 0 2 0
    let ten_by_the_last = user(&[99], any(path(vec![skipping(&sealed, [Some(0), None, None])])));
    // 3 3 3, 2 1 2, and at the end 1 1 2
    let accepted_empty =
        user(&[], path(vec![skipping(&sealed, [Some(2), Some(1), None]), sealed.clone()]));
    // 16 16 16 to the last, and at the end 15 16 16
    let most = path(vec![self_issued(&sealed); MAX_CERTIFICATES]);

    vec![
        row("8, own skip values", eight, stops(8, 2), [0, 2, 3]),
        row("8, own requireExplicitPolicy above 0", eight_above_0, stops(8, 1), [0, 3, 0]),
        row("8 at the last, own skip values", eight_at_the_last, stops(8, 2), [0, 2, 1]),
        row("8 after a fall to 0", eight_after_a_fall, stops(8, 3), [0, 2, 1]),
        row("9, own skip values", nine, stops(9, 2), [3, 2, 4]),
        row("9 of a self-issued one", nine_self_issued, stops(9, 1), [3, 0, 3]),
        row("0, the last has skip values 0", last_requires_0, stands(2), [0, 2, 2]),
        row("0, the last has skip values 1", last_requires_1, stands(3), [3, 4, 4]),
        row("0, the last is self-issued", last_self_issued, stands(2), [1, 2, 2]),
        row("0, all are self-issued", all_self_issued, stands(2), [2, 3, 3]),
        row("0, self-issued with skip values", self_issued_skips, stands(3), [1, 1, 3]),
        row("0, skip values of 255", greatest, stands(2), [1, 2, 2]),
        row("0, skip values around the counters", around, stands(2), [2, 2, 3]),
        row("0, a later skip value is greater", later_greater, stands(3), [1, 0, 0]),
        row("0, all counters at 0", all_at_0, stands(4), [0, 0, 0]),
        row("10 by the fall at the end", ten_by_the_fall, empty(10, 2, 2), [0, 0, 2]),
        row("10 by requireExplicitPolicy 0", ten_by_the_last, empty(10, 1, 1), [0, 2, 0]),
        row("0, an empty user set", accepted_empty, empty(0, 0, 2), [1, 1, 2]),
        row("0, the greatest counters", most, stands(MAX_CERTIFICATES), [15, 16, 16]),
    ]
}

/// The rows of request Six: "a pair repeated within one certificate is refused
/// with 11, when its second subject policy is read, after 4".
pub fn refused_rows() -> Vec<Refused> {
    let mapped = |mappings: &[(u16, u16)]| path(vec![certificate(&[], mappings)]);
    let first_of_two = |mappings: &[(u16, u16)], policies: &[u16]| {
        path(vec![certificate(&[], mappings), certificate(policies, &[])])
    };
    let mut full: Vec<(u16, u16)> = (5..).map(|issuer| (issuer, 6)).take(MAX_LIST).collect();
    full[MAX_LIST - 1] = full[0];
    let listed = path(vec![certificate(&[70], &[(70, 71), (70, 71)])]);
    let policy_too = path(vec![certificate(&[5, 5], &[(5, 6), (5, 6)])]);
    let second = path(vec![certificate(&[], &[(5, 6)]), certificate(&[], &[(5, 6), (5, 6)])]);

    let row = |name, path, number, bytes| Refused { name, path, number, bytes };
    vec![
        row("a pair twice", mapped(&[(5, 6), (5, 6)]), 11, 13),
        row("a pair twice, the last of three", mapped(&[(5, 6), (7, 8), (5, 6)]), 11, 17),
        row("a pair twice, not the first", mapped(&[(5, 6), (7, 8), (7, 8)]), 11, 17),
        row("a pair three times", mapped(&[(5, 6), (5, 6), (5, 6)]), 11, 13),
        row("a policy to itself, twice", mapped(&[(5, 5), (5, 5)]), 11, 13),
        row("a full list whose last is its first", mapped(&full), 11, 129),
        row("a pair twice, after policies", listed, 11, 16),
        row("a pair twice in the second of two", second, 11, 19),
        row("a pair twice, issuer anyPolicy", first_of_two(&[(ANY, 71); 2], &[70]), 11, 13),
        row("a pair twice, subject anyPolicy", first_of_two(&[(70, ANY); 2], &[70]), 11, 13),
        row("anyPolicy to itself, twice", first_of_two(&[(ANY, ANY); 2], &[70]), 11, 13),
        row("a pair twice, then a subject 0", mapped(&[(5, 6), (5, 6), (5, 0)]), 11, 13),
        row("a pair twice, then a policy twice", first_of_two(&[(5, 6); 2], &[5, 5]), 11, 13),
        row("(0, 0) twice", mapped(&[(0, 0), (0, 0)]), 4, 7),
        row("a subject 0 twice", mapped(&[(5, 0), (5, 0)]), 4, 9),
        row("a subject 0, then a pair twice", mapped(&[(5, 6), (5, 0), (5, 6)]), 4, 13),
        row("an issuer 0, then a pair twice", mapped(&[(5, 6), (0, 6), (5, 6)]), 4, 11),
        row("a policy twice, then a pair twice", policy_too, 5, 9),
    ]
}
