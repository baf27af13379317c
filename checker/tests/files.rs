//! Whole files: accepted derivations, steps gone wrong, damaged copies.

mod common;

use checker::file::read;
use checker::gen::{damaged, Derivation, Gen, Rng};
use checker::matrix::meaning;
use checker::replay::{replay, Answer};
use checker::step::{single, Step};
use checker::typing::typing;
use checker::words::{head, Side, BOUND, WORDS};

struct Run {
    answer: Answer,
    left: Vec<u16>,
    right: Vec<u16>,
}

/// A replay in slices full of some word.
fn run(file: &[u8], dirt: u16) -> Run {
    let (mut left, mut right) = (vec![dirt; WORDS], vec![dirt; WORDS]);
    let answer = replay(file, &mut left, &mut right);
    Run { answer, left, right }
}

fn filled(words: &[u16]) -> Vec<u16> {
    let mut slice = words.to_vec();
    slice.resize(WORDS, 0);
    slice
}

#[test]
fn accepted_derivations_have_equal_matrices() {
    let mut gen = Gen::new(common::seed());
    let (mut steps, mut compared, mut summed) = (0, 0, 0);
    let (mut of_sums, mut of_marks) = ([0; 4], [0; 2]);
    for _ in 0..2_000 {
        gen.declare();
        let length = gen.rng.within(0, 30);
        let derivation = gen.derivation(length);
        assert_eq!(derivation.steps.len(), length, "the wanted length");
        let run = run(&gen.file(&derivation), 1);
        let Answer { code, side, step, at, left, right } = run.answer;
        assert_eq!((code, side, step, at), (0, 0, length, 0));
        assert_eq!(left, right);
        assert_eq!(run.left, run.right);
        steps += length;
        for (_, step) in &derivation.steps {
            match step.rule {
                180..=183 => of_sums[usize::from(step.rule - 180)] += 1,
                190 | 191 => of_marks[usize::from(step.rule - 190)] += 1,
                _ => {}
            }
        }

        // Starts and common end stand for the same matrix.
        for largest in [3, 2, 1] {
            let choice = gen.choice(largest).expect("declared indices are small");
            let of = |words: &[u16]| meaning(&gen.declared, &choice, words);
            let ends = (of(&derivation.left), of(&derivation.right), of(&run.left[..left]));
            if let (Some(one), Some(two), Some(three)) = ends {
                assert_eq!(one, two);
                assert_eq!(one, three);
                compared += 1;
                summed += usize::from(derivation.left.iter().any(|&word| head(word) == BOUND));
                break;
            }
        }
    }
    println!("{steps} steps; matrices compared for {compared} of 2000 derivations");
    println!("{summed} of them with bound bases; steps of 180 to 183: {of_sums:?}");
    println!("steps of 190 and 191: {of_marks:?}");
    assert!(compared > 1_800 && summed > 300 && of_sums.iter().all(|&count| count > 20));
    assert!(of_marks.iter().all(|&count| count > 20));
}

#[test]
fn a_long_derivation() {
    let mut gen = Gen::new(common::seed() ^ 2);
    let derivation = gen.derivation(1_000);
    let answer = run(&gen.file(&derivation), 1).answer;
    assert_eq!((answer.code, answer.step), (0, 1_000));
}

/// The replay by single steps: the answer from 20 on and both slices.
fn step_by_step(gen: &Gen, derivation: &Derivation) -> Run {
    let mut slices = [filled(&derivation.left), filled(&derivation.right)];
    let mut lengths = [derivation.left.len(), derivation.right.len()];
    let mut answer = Answer::default();
    for (side, step) in &derivation.steps {
        let which = usize::from(*side == Side::Right);
        let done = single(&gen.declared, &mut slices[which], lengths[which], *step);
        lengths[which] = done.length;
        answer.step += 1;
        if done.code != 0 {
            answer = Answer { code: done.code, side: which as u8 + 1, at: done.at, ..answer };
            break;
        }
    }
    let [left, right] = slices;
    if answer.code == 0 && left != right {
        answer.code = 30;
        answer.at = (0..WORDS).find(|&k| left[k] != right[k]).unwrap();
    }
    answer.left = lengths[0];
    answer.right = lengths[1];
    Run { answer, left, right }
}

#[test]
fn a_replay_is_its_single_steps() {
    let mut gen = Gen::new(common::seed() ^ 3);
    let mut codes = [0; 31];
    for _ in 0..6_000 {
        gen.declare();
        let length = gen.rng.within(1, 15);
        let mut derivation = gen.derivation(length);
        let steps = &mut derivation.steps;
        let k = gen.rng.below(length);
        match gen.rng.below(7) {
            0 => steps[k].1.rule = gen.rng.below(200) as u16,
            1 => steps[k].1.place = gen.rng.below(60) as u16,
            2 => steps[k].1.i = gen.rng.below(4) as u16,
            3 => steps[k].1.j = gen.rng.below(4) as u16,
            4 => steps.truncate(k),
            5 => steps.swap(k, 0),
            _ => {}
        }
        let expected = step_by_step(&gen, &derivation);
        let got = run(&gen.file(&derivation), 0xFFFF);
        assert_eq!(got.answer, expected.answer);
        assert_eq!(got.left, expected.left);
        assert_eq!(got.right, expected.right);
        codes[usize::from(got.answer.code)] += 1;
    }
    println!("answers by code: {codes:?}");
    for code in [0, 20, 21, 22, 30] {
        assert!(codes[code] > 50, "code {code} was met");
    }
}

/// What document 01 says of every answer, whatever the file.
fn check_form(file: &[u8], run: &Run) {
    let Answer { code, side, step, at, left, right } = run.answer;
    let lines = file.iter().filter(|&&byte| byte == b'\n').count();
    match code {
        2 => assert_eq!((side, step, at), (0, 0, 0)),
        3..=9 => assert!(side == 0 && step == 0 && (1..=lines + 1).contains(&at)),
        10 | 13 => assert!((1..=2).contains(&side) && step == 0 && at < WORDS),
        11 => assert!((1..=2).contains(&side) && step == 0 && at == 0),
        12 => assert_eq!((side, step, at), (0, 0, 0)),
        20..=23 => assert!((1..=2).contains(&side) && (1..=1000).contains(&step)),
        30 => {
            assert_eq!(side, 0);
            assert_eq!(run.left[..at], run.right[..at]);
            assert_ne!(run.left[at], run.right[at]);
        }
        0 => {
            assert_eq!((side, at), (0, 0));
            assert_eq!(run.left, run.right);
        }
        _ => panic!("no such code: {code}"),
    }
    assert!(run.left[left..].iter().chain(&run.right[right..]).all(|&word| word == 0));
    if (1..20).contains(&code) {
        assert_eq!((left, right), (0, 0));
    } else {
        // Both sides hold terms of one type.
        let script = read(file, &mut [0; WORDS], &mut [0; WORDS]).expect("a file that was read");
        let types = [
            typing(&script.declared, &run.left, left),
            typing(&script.declared, &run.right, right),
        ];
        assert_eq!([types[0].code, types[1].code], [0, 0]);
        assert_eq!(types[0].found, types[1].found);
    }
}

#[test]
fn damaged_files_get_exactly_one_answer() {
    let mut gen = Gen::new(common::seed() ^ 4);
    let mut codes = [0; 31];
    for _ in 0..2_000 {
        let file = gen.accepted(10);
        for _ in 0..50 {
            let file = damaged(&mut gen.rng, &file);
            let one = run(&file, 0);
            check_form(&file, &one);
            let other = run(&file, 0x0600);
            assert_eq!(one.answer, other.answer);
            assert_eq!((one.left, one.right), (other.left, other.right));
            codes[usize::from(one.answer.code)] += 1;
        }
    }
    println!("100000 damaged files, answers by code: {codes:?}");
    for code in [0, 3, 4, 5, 7, 8, 9, 10, 11, 12, 13, 20, 21, 22, 30] {
        assert!(codes[code] > 0, "code {code} was met");
    }
}

/// The files on which `test.sh` holds the proved replay to this checker. Code 2
/// is left to the stored cases.
#[test]
fn the_files_that_are_compared_meet_every_code() {
    let mut gen = Gen::new(1);
    let mut codes = [0; 31];
    for _ in 0..10_000 {
        let file = gen.replay_case();
        let run = run(&file, 1);
        check_form(&file, &run);
        codes[usize::from(run.answer.code)] += 1;
    }
    println!("answers by code: {codes:?}");
    for code in [0, 3, 4, 5, 6, 7, 8, 9, 10, 11, 12, 13, 20, 21, 22, 23, 30] {
        assert!(codes[code] > 0, "code {code} was met");
    }
}

#[test]
fn noise_gets_an_answer() {
    let mut rng = Rng::new(common::seed() ^ 5);
    for _ in 0..20_000 {
        let length = rng.below(80);
        let mut file: Vec<u8> = match rng.below(3) {
            0 => Vec::new(),
            1 => b"types=1\nbasis=1:0\nleft=".to_vec(),
            _ => b"types=2\nvar=S\nleft=5\nright=5\nstep=".to_vec(),
        };
        for _ in 0..length {
            file.push(match rng.below(3) {
                0 => rng.draw() as u8,
                _ => *rng.pick(b"0123456789: \n=LRSKBOU"),
            });
        }
        check_form(&file, &run(&file, 3));
    }
}

#[test]
fn the_same_seed_gives_the_same_files() {
    let make = |seed| -> Vec<Vec<u8>> {
        let mut gen = Gen::new(seed);
        let mut files = Vec::new();
        for _ in 0..50 {
            let file = gen.accepted(10);
            files.push(damaged(&mut gen.rng, &file));
            files.push(file);
            files.push(gen.typing_case());
            files.push(gen.step_case());
            files.push(gen.replay_case());
        }
        files
    };
    let seed = common::seed();
    assert_eq!(make(seed), make(seed));
    assert_ne!(make(seed), make(seed + 1));
}

#[test]
fn a_slice_of_another_length_is_code_1_and_stays() {
    let file = b"types=0\nleft=5\nright=5\nend=0\n";
    for (l, r) in [(0, WORDS), (WORDS, 0), (WORDS - 1, WORDS), (WORDS, WORDS + 1), (5, 5)] {
        let (mut left, mut right) = (vec![9; l], vec![9; r]);
        let answer = replay(file, &mut left, &mut right);
        assert_eq!(answer, Answer { code: 1, ..Answer::default() });
        assert!(left.iter().chain(&right).all(|&word| word == 9), "untouched");
    }
    // 1 comes before 2.
    let answer = replay(&[0; 70_000], &mut [], &mut []);
    assert_eq!(answer.code, 1);

    let step = Step { rule: 2, place: 0, i: 0, j: 0 };
    for length in [0, WORDS - 1, WORDS + 1] {
        let mut slice = vec![9; length];
        let answer = single(&Gen::new(1).declared, &mut slice, 1, step);
        assert_eq!((answer.code, answer.step, answer.at, answer.length), (1, 0, 0, 0));
        assert!(slice.iter().all(|&word| word == 9), "untouched");
    }
}
