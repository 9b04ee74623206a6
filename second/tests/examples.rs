//! The worked examples of 01 with their outcomes.

use second::build::{build, Automaton, Core, Macrostate};
use second::judge::judge;
use second::listing::listing;
use second::rule::{read, same_rules, write, Rule};
use second::sample::{file, D, E, F, I, Z};
use second::table::judge_table;
use second::word::{same_words, Word};

fn bytes(numbers: &[u64]) -> Vec<u8> {
    numbers.iter().flat_map(|x| x.to_le_bytes()).collect()
}

/// The start number that the table of a rule gives on a word.
fn start(rule: &[u8], lead: &[u8], cycle: &[u8]) -> Option<usize> {
    let (codes, transitions) = build(rule, 65_536, 1_048_576).unwrap();
    let scratch = codes.len() * (lead.len() + cycle.len());
    let table = [&bytes(&codes)[..], &bytes(&transitions)[..]];
    judge_table(rule, [lead, cycle], table, scratch).unwrap()
}

#[test]
fn refused_files() {
    let examples: [(u8, &[u8]); 16] = [
        (1, &[0x41, 0x57]),
        (2, &[1, 1, 0, 0, 0, 0, 0x57, 0x41]),
        (3, &[0, 1, 0, 0, 0, 0, 0x41, 0x57]),
        (4, &[1, 0x11, 0, 0, 0, 0, 0x41, 0x57]),
        (5, &[1, 1, 1, 0, 0, 0, 0x41, 0x57]),
        (6, &[1, 1, 0, 2, 0, 0, 0x41, 0x57]),
        (7, &[1, 1, 0, 0, 0, 0, 0x41, 0x57]),
        (8, &[9, 1, 1, 0, 0, 0, 0, 0x41, 0x57]),
        (9, &[1, 1, 1, 0, 0, 0, 0, 0x41, 0x57]),
        (10, &[2, 1, 1, 1, 0, 0, 1, 0, 0x41, 0x57]),
        (11, &[2, 1, 1, 1, 2, 1, 0, 1, 2, 0, 0x41, 0x57]),
        (20, &[1, 0, 2, 1, 1, 0, 0, 2, 0, 0x41, 0x57]),
        (20, &[0, 1, 2, 1, 1, 0, 0, 2, 0, 0x41, 0x57]),
        (20, &[1, 1, 2, 1, 1, 0, 0, 2, 0, 0x41, 0x57]),
        (20, &[2, 3, 1, 2, 1, 2, 1, 0, 1, 3, 0, 0x41, 0x57]),
        (10, &[1, 1, 2, 3, 1, 1, 0, 0, 3, 0, 0x41, 0x57]),
    ];
    for (number, example) in examples {
        assert_eq!(read(example), Err(number));
        assert_eq!(same_rules(example, &F), Err(number));
        assert_eq!(same_rules(&F, example), Err(number));
        assert_eq!(judge(example, &[], &[], 0), Err(number));
        assert_eq!(build(example, 0, 0), Err(number));
        let word: [&[u8]; 2] = [&[], &[]];
        assert_eq!(judge_table(example, word, [&[1], &[]], 0), Err(number));
        assert_eq!(listing(example), format!("refused {number}\n"));
    }
    assert_eq!(same_rules(&[0x41, 0x57], &[0; 9]), Err(1));
    assert_eq!(same_rules(&[0; 9], &[0x41, 0x57]), Err(2));
}

#[test]
fn prefaces() {
    for length in [0, 1, 255, 256, 70_000] {
        let mut long = vec![0x41; length];
        long.extend(F);
        let (rule, preface) = read(&long).unwrap();
        assert_eq!((rule, preface), (read(&F).unwrap().0, length));
        assert_eq!(same_rules(&long, &F), Ok(true));
    }
}

#[test]
fn refused_words() {
    assert_eq!(Word::new(&[0], &[]), Err(12));
    assert_eq!(Word::new(&[0; 33], &[]), Err(12));
    assert_eq!(Word::new(&[0; 33], &[0]), Err(13));
    assert_eq!(Word::new(&[], &[0; 33]), Err(13));
    assert!(Word::new(&[0; 32], &[0; 32]).is_ok());
    assert_eq!(judge(&F, &[2], &[0], 9), Err(14));
    assert_eq!(judge(&F, &[], &[0, 2], 9), Err(14));
    assert_eq!(judge(&F, &[0], &[0], 1), Err(16));
    assert_eq!(same_words([&[0], &[]], [&[], &[0; 33]]), Err(12));
    assert_eq!(same_words([&[], &[0; 33]], [&[0], &[]]), Err(13));
    assert_eq!(same_words([&[200], &[1]], [&[200], &[1]]), Ok(true));
    assert_eq!(same_words([&[1], &[1]], [&[1], &[1, 1]]), Ok(true));
    assert_eq!(same_words([&[1], &[1]], [&[], &[1]]), Ok(true));
    assert_eq!(same_words([&[1], &[1]], [&[1], &[1, 2]]), Ok(false));
    assert_eq!(same_words([&[2], &[1]], [&[], &[1]]), Ok(false));
}

#[test]
fn refused_tables() {
    let word: [&[u8]; 2] = [&[], &[0]];
    let table = |codes: &[u64], transitions: &[u64]| {
        let (codes, transitions) = (bytes(codes), bytes(transitions));
        let scratch = codes.len() / 8;
        judge_table(&F, word, [&codes, &transitions], scratch)
    };
    assert_eq!(table(&[], &[]), Ok(None));
    assert_eq!(table(&[5, 5], &[]), Err(15));
    assert_eq!(table(&[6, 5], &[]), Err(15));
    assert_eq!(table(&[1 << 48], &[]), Err(15));
    assert_eq!(table(&[(1 << 48) - 1], &[]), Ok(None));
    assert_eq!(table(&[], &[0]), Err(15));
    assert_eq!(table(&[1], &[0]), Ok(Some(0)));
    assert_eq!(table(&[1], &[0, 0]), Err(15));
    assert_eq!(table(&[1], &[1]), Err(15));
    assert_eq!(table(&[1], &[0, 65_536]), Ok(Some(0)));
    assert_eq!(table(&[1], &[0, 131_072]), Err(15));
    assert_eq!(table(&[1], &[0, 16_777_216]), Err(15));
    assert_eq!(table(&[1], &[0, 1 << 40]), Err(15));
    let most: Vec<u64> = (0..65_536).collect();
    assert_eq!(table(&most, &[]), Ok(None));
    assert_eq!(table(&most, &[65_535 * 16_777_216]), Ok(None));
    let over: Vec<u64> = (0..65_537).collect();
    assert_eq!(table(&over, &[]), Err(15));
    assert_eq!(judge_table(&F, word, [&[0; 7], &[]], 99), Err(15));
    assert_eq!(judge_table(&F, word, [&[0; 8], &[0; 9]], 99), Err(15));
    assert_eq!(judge_table(&F, word, [&[0; 8], &[]], 0), Err(16));
}

#[test]
fn rooms() {
    assert_eq!(build(&F, 2, 7), Err(17));
    assert_eq!(build(&F, 2, 6), Err(17));
    assert_eq!(build(&F, 3, 6), Err(18));
    assert!(build(&F, 3, 7).is_ok());
    assert!(build(&Z, 1, 0).is_ok());
    assert_eq!(build(&Z, 0, 0), Err(17));
}

#[test]
fn writer() {
    assert_eq!(write([1, 2, 0, 0], &[1, 1], &[1, 0], 12), Ok(F.to_vec()));
    assert_eq!(write([1, 2, 0, 0], &[1, 1], &[1, 0], 11), Err(16));
    assert_eq!(write([0, 0, 9, 9], &[], &[], 0), Err(3));
    assert_eq!(write([257, 0, 9, 9], &[], &[], 0), Err(3));
    assert_eq!(write([8, 17, 8, 9], &[], &[], 0), Err(4));
    assert_eq!(write([8, 16, 8, 256], &[], &[], 0), Err(5));
    assert_eq!(write([8, 16, 7, 256], &[], &[], 0), Err(6));
    assert_eq!(write([1, 1, 0, 0], &[9, 9], &[], 0), Err(7));
    assert_eq!(write([1, 1, 0, 0], &[9], &[], 0), Err(8));
    assert_eq!(write([1, 1, 0, 0], &[0], &[0; 65_536], 99), Err(9));
    assert_eq!(write([1, 1, 0, 0], &[1], &[2], 99), Err(10));
    let mixed = write([2, 1, 0, 1], &[1, 1], &[2, 1], 0);
    assert_eq!(mixed, Err(11));
    assert_eq!(write([2, 1, 0, 1], &[2, 1], &[2, 3, 1], 0), Err(20));
    assert_eq!(write([2, 1, 0, 1], &[2, 1], &[2, 2, 1], 0), Err(20));
    assert_eq!(
        write([2, 1, 0, 1], &[2, 1], &[2, 1, 2], 99),
        Ok(vec![2, 1, 2, 2, 1, 2, 1, 0, 1, 3, 0, 0x41, 0x57])
    );
}

#[test]
fn case_1() {
    let printed = "built 3 7\nm 0 0 - a\nm 1 257 i a\nm 2 17592186044673 - -\n\
        t 0 0 0\nt 1 0 2\nt 1 1 0\nt 1 1 2\nt 2 0 2\nt 2 1 0\nt 2 1 1\n";
    assert_eq!(listing(&F), printed);
    let mut long = vec![0; 4_096 - F.len()];
    long.extend(F);
    assert_eq!(listing(&long), printed);
    long.push(0);
    assert_eq!(listing(&long), "long\n");
}

#[test]
fn cases_2_to_4() {
    let (codes, transitions) = build(&D, 13, 26).unwrap();
    assert_eq!((codes.len(), transitions.len()), (13, 26));
    assert_eq!(build(&E, 9, 9), Ok((vec![1], vec![0])));
    assert_eq!(build(&Z, 9, 9), Ok((vec![1], vec![])));
}

#[test]
fn cases_5_to_9() {
    let yes = |masks: &[u8]| Ok((true, masks.to_vec()));
    let no = |masks: &[u8]| Ok((false, masks.to_vec()));
    assert_eq!(judge(&F, &[0, 1], &[0], 3), yes(&[1, 1, 0]));
    assert_eq!(start(&F, &[0, 1], &[0]), Some(1));
    assert_eq!(judge(&F, &[], &[0], 1), no(&[0]));
    assert_eq!(start(&F, &[], &[0]), None);
    assert_eq!(judge(&I, &[1], &[0], 2), no(&[2, 0]));
    assert_eq!(start(&I, &[1], &[0]), None);
    assert_eq!(judge(&I, &[], &[0, 1], 2), yes(&[3, 3]));
    assert!(start(&I, &[], &[0, 1]).is_some());
    assert_eq!(judge(&D, &[], &[0], 1), yes(&[3]));
    assert_eq!(start(&D, &[], &[0]), Some(4));
    assert_eq!(build(&D, 99, 99).unwrap().0[4], 4_611);
}

#[test]
fn build_of_rule_i() {
    let (codes, transitions) = build(&I, 99, 99).unwrap();
    let listed = [
        1,
        4_099,
        1_099_511_627_777,
        1_099_511_631_875,
        18_691_697_676_291,
    ];
    assert_eq!(codes, listed);
    assert_eq!(transitions.len(), 9);
}

#[test]
fn seven_rejecting_states() {
    let rule = Rule {
        states: 7,
        letters: 1,
        initial: 0,
        accepting: 0,
        entries: (0..7).map(|q| vec![vec![1 << ((q + 1) % 7)]]).collect(),
    };
    assert_eq!(
        Automaton::new(&rule).initial_macrostates(usize::MAX),
        85_220
    );
    assert_eq!(build(&file(&rule), 65_536, 1_048_576), Err(17));
}

#[test]
fn trap_of_rule_d() {
    let (rule, _) = read(&D).unwrap();
    let automaton = Automaton::new(&rule);
    let core = |code: u64| -> Core { Macrostate::from_code(code).core };
    let (earlier, levels) = automaton.earlier(&core(8_451), 0);
    assert_eq!(earlier, core(4_611));
    let source = Macrostate {
        core: earlier,
        component: 0,
        classes: 2,
    };
    let target = automaton.target(&source, core(8_451), &levels);
    assert_eq!((target.component, target.classes), (0, 2));
}
