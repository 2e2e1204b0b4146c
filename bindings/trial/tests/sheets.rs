//! read_sheet, judge_sheet and write_sheet, with every byte of the buffer.

use gaskeys::SHEET_TEXT_MOST;
use second::dice::Dice;
use second::sheet::{self, PLACES};
use second::trials::sheets::{damage, each_list, each_text, random};
use trial::lent::Lent;
use trial::{dice, first, other, sheets, Refused};

/// Lengths of lent lists at and beside those that matter.
const LENGTHS: [usize; 10] =
    [PLACES, 0, 1, 3, PLACES - 3, PLACES - 1, PLACES + 1, PLACES + 3, 6000, 2 * PLACES];

/// The text and a list of that length, read by both.
fn same_reading(text: &[u8], length: usize) {
    let (mut one, mut two) = (Lent::of(length), Lent::of(length));
    let answer = first(gaskeys::read_sheet(text, one.part()));
    assert_eq!(answer, other(sheet::read(text, two.part())), "{length} {text:?}");
    assert_eq!(one, two, "{length} {text:?}");
}

/// A text with a byte changed, put in or taken out, or cut.
fn damaged(dice: &mut Dice, text: &[u8]) -> Vec<u8> {
    let mut text = text.to_vec();
    let place = dice.below(text.len() as u64) as usize;
    let byte = dice.one_of(b"0123456789\t\n\r -+.\0\x80\xff");
    match dice.below(5) {
        0 => text.truncate(place),
        1 => text.insert(place, byte),
        2 => drop(text.remove(place)),
        3 => text.push(byte),
        _ => text[place] = byte,
    }
    text
}

#[test]
fn texts_are_read_alike() {
    let mut dice = dice(901);
    for list in sheets::accepted(&mut dice) {
        let text = sheet::text(&list).into_bytes();
        for length in LENGTHS {
            same_reading(&text, length);
            same_reading(&damaged(&mut dice, &text), length);
            same_reading(b"", length);
        }
        for _ in 0..150 {
            same_reading(&damaged(&mut dice, &text), PLACES);
        }
        for end in [0, 1, 3, 4, 10, text.len() - 1] {
            same_reading(&text[..end], PLACES);
        }
    }
}

#[test]
fn damaged_texts_are_read_alike() {
    let (mut good, mut bad) = (0, 0);
    each_text(&mut dice(904), &mut |text| {
        same_reading(text, PLACES);
        *(if sheet::first_bad_row(text).is_none() { &mut good } else { &mut bad }) += 1;
    });
    assert!(good > 500 && bad > 6_000, "{good} {bad}");
}

#[test]
fn a_reader_judges_the_form_alone() {
    let mut dice = dice(902);
    for _ in 0..200 {
        let list: Vec<u32> = (0..PLACES).map(|_| dice.below(200_002) as u32).collect();
        same_reading(sheet::text(&list).as_bytes(), PLACES);
    }
}

fn same_verdict(list: &[u32]) -> bool {
    let answer = first(gaskeys::judge_sheet(list));
    assert_eq!(answer, other(sheet::judge(list)));
    answer.is_ok()
}

#[test]
fn lists_are_judged_alike() {
    let mut dice = dice(903);
    let good = sheets::accepted(&mut dice);
    for _ in 0..5_000 {
        let mut list = sheets::drawn(&mut dice, &good);
        if !list.is_empty() {
            damage(&mut dice, &mut list);
        }
        same_verdict(&list);
    }
    assert!(good.iter().all(|list| same_verdict(list)));
}

#[test]
fn the_step_rule_is_kept_alike_in_every_row() {
    let (mut good, mut bad) = (0, 0);
    each_list(&mut dice(905), &mut |list| {
        *(if same_verdict(list) { &mut good } else { &mut bad }) += 1;
    });
    assert!(good > 1_800 && bad > 1_800 && good + bad > 4_600, "{good} {bad}");
}

/// The list written by both into a buffer of that length: the text, which is read as the list again, or the refusal.
fn same_writing(list: &[u32], length: usize) -> Result<Vec<u8>, Refused> {
    let (mut one, mut two) = (Lent::buffer(length), Lent::buffer(length));
    let answer = first(gaskeys::write_sheet(list, one.part()));
    assert_eq!(answer, other(sheet::write(list, two.part())), "{length} {list:?}");
    assert_eq!(one, two, "{length} {list:?}");
    let text = one.part()[..answer?].to_vec();
    let mut read = vec![0; PLACES];
    assert_eq!(first(gaskeys::read_sheet(&text, &mut read)), Ok(()));
    assert_eq!(read, list);
    Ok(text)
}

/// Lengths of buffers at and beside those that matter to a list, and random ones.
fn buffers(dice: &mut Dice, list: &[u32]) -> [usize; 8] {
    let most = SHEET_TEXT_MOST;
    let needed = sheet::write(list, &mut vec![0; most]).unwrap_or(most);
    let [below, any] = [needed, 2 * most].map(|limit| dice.below(limit as u64) as usize);
    [0, 1, needed - 1, needed, needed + 1, most, below, any]
}

#[test]
fn lists_are_written_alike() {
    let mut dice = dice(906);
    let good = sheets::accepted(&mut dice);
    let (mut written, mut refused) = (0, [0; 15]);
    for _ in 0..1_000 {
        let two = [dice.one_of(&good), random(&mut dice)];
        let mut list = sheets::drawn(&mut dice, &two);
        if dice.below(4) == 0 && !list.is_empty() {
            damage(&mut dice, &mut list);
        }
        for length in buffers(&mut dice, &list) {
            match same_writing(&list, length) {
                Ok(_) => written += 1,
                Err((number, _)) => refused[number as usize] += 1,
            }
        }
    }
    let [of_length, of_row, of_buffer] = [1, 3, 14].map(|number| refused[number]);
    assert!(written > 2_000 && of_buffer > 2_000, "{written} {refused:?}");
    assert!(of_length > 200 && of_row > 1_000, "{written} {refused:?}");
}

#[test]
fn lists_at_the_step_rule_are_written_alike() {
    let (mut written, mut refused) = (0, 0);
    each_list(&mut dice(907), &mut |list| {
        let text = same_writing(list, SHEET_TEXT_MOST);
        *(if text.is_ok() { &mut written } else { &mut refused }) += 1;
    });
    assert!(written > 1_800 && refused > 1_800, "{written} {refused}");
}

#[test]
fn a_text_that_was_read_is_written_back() {
    let (mut written, mut refused) = (0, 0);
    each_text(&mut dice(908), &mut |text| {
        let mut list = vec![0; PLACES];
        if gaskeys::read_sheet(text, &mut list).is_err() {
            return;
        }
        let back = same_writing(&list, text.len());
        match sheet::judge(&list) {
            Ok(()) => assert_eq!(back.as_deref(), Ok(text)),
            Err(refusal) => assert_eq!(back, Err((3, refusal.row))),
        }
        *(if back.is_ok() { &mut written } else { &mut refused }) += 1;
    });
    assert!(written > 200 && refused > 500, "{written} {refused}");
}
