//! The loans of every exported function: too short, too long, of another version,
//! torn. Nothing that was lent changes where a call is refused.

use jilakkor::WORDS;
use script::{case::MARGIN, random::Random};

use super::{
    exported::{each, prepared, Exported, CALL, CALLS},
    same, Checked,
};
use crate::{
    ffi::{self, Lent},
    lot::{noise, Lot},
};

pub fn all() -> Checked {
    accepted()?;
    short()?;
    versions()?;
    torn()?;
    every_word()?;
    damaged()?;
    long_answer()?;
    many_and_short()?;
    kinds()
}

/// Makes a call on loans that were changed: its number, and where it is refused
/// all is as it was.
fn on_changed((name, exported): Exported, expected: u32, change: &dyn Fn(&mut Lot)) -> Checked {
    let (mut lot, mut counters) = prepared()?;
    change(&mut lot);
    let (before, counted) = (lot.clone(), counters);
    same(name, exported(lot.lent(), &mut counters), expected)?;
    if expected != 0 {
        same(name, lot.difference(&before), None)?;
        same(name, counters, counted)?;
    }
    Ok(())
}

fn accepted() -> Checked {
    each(|exported, _| on_changed(exported, 0, &|_| ()))
}

/// The loan is so much shorter. Its last places become a part of its margin.
fn cut<T>(loan: &mut Vec<T>, missing: usize) {
    loan.truncate(loan.len() - missing);
}

fn short() -> Checked {
    let cuts: [fn(&mut Lot); 9] = [
        |lot| cut(&mut lot.words, 1),
        |lot| cut(&mut lot.words, WORDS - 101),
        |lot| cut(&mut lot.words, WORDS - 92),
        |lot| cut(&mut lot.words, WORDS),
        |lot| cut(&mut lot.answer, 1),
        |lot| cut(&mut lot.answer, 2),
        |lot| cut(&mut lot.records, 1),
        |lot| cut(&mut lot.memory, 1),
        |lot| lot.records = vec![9; 2 * MARGIN],
    ];
    for (place, change) in cuts.into_iter().enumerate() {
        each(|exported, number| {
            // `jilakkor_audit` has no answer.
            let unused = exported.0 == "audit" && [4, 5].contains(&place);
            on_changed(exported, if unused { 0 } else { number }, &change)
        })?;
    }
    Ok(())
}

fn versions() -> Checked {
    for version in [0, 1, 3, 1 << 32 | 1, 9 << 32 | 2, u64::MAX] {
        let change = |lot: &mut Lot| lot.words[MARGIN] = version;
        each(|exported, _| {
            let number = if exported.0 == "boot" { 0 } else { 6 };
            on_changed(exported, number, &change)
        })?;
    }
    Ok(())
}

fn torn() -> Checked {
    let writes: [fn(&mut Lot); 5] = [
        |lot| lot.words[MARGIN + 3] ^= 1,
        |lot| lot.words[MARGIN + 89] = 2,
        |lot| lot.words[MARGIN + 90] = 1002,
        |lot| lot.records[MARGIN] ^= 16,
        |lot| *lot.records.iter_mut().rev().nth(MARGIN).expect("a record") = 1,
    ];
    for write in writes {
        each(|exported, _| {
            let number = if exported.0 == "boot" { 0 } else { 6 };
            on_changed(exported, number, &write)
        })?;
    }
    Ok(())
}

/// Every word of the state, one bit changed. Those that may be anything are the
/// words of rows that are not in use, the queue's count and the pass's rounds, for
/// which there is room, the counters of what was granted, freed, reclaimed and
/// lent, and all behind the counters.
fn every_word() -> Checked {
    let used = (prepared()?.0.words[MARGIN] >> 32) as usize;
    for place in 0..WORDS {
        let unused = (1 + 11 * used..89).contains(&place) || place > 100;
        let any = unused || [89, 90, 96, 97, 98, 100].contains(&place);
        let number = if any { 0 } else { 6 };
        let change = |lot: &mut Lot| lot.words[MARGIN + place] ^= 1;
        on_changed(CALLS[0], number, &change).map_err(|error| format!("word {place}: {error}"))?;
    }
    Ok(())
}

/// Random damages: every call is refused 6 exactly where the audit is, and changes
/// nothing where it is refused.
fn damaged() -> Checked {
    let mut random = Random::of_list(1, 2);
    let audit = CALLS[0].1;
    for _ in 0..400 {
        let (mut lot, mut counters) = prepared()?;
        damage(&mut random, &mut lot);
        let torn = audit(lot.lent(), &mut counters) == 6;
        for (name, exported) in CALLS.into_iter().chain([CALL]) {
            let (mut lot, mut counters, before) = (lot.clone(), counters, lot.clone());
            let returned = exported(lot.lent(), &mut counters);
            same(name, returned == 6, torn)?;
            if returned != 0 {
                same(name, lot.difference(&before), None)?;
            }
        }
    }
    Ok(())
}

/// Changes a few bits of the records, or of the words before the counters, which
/// `jilakkor_call` doesn't see.
fn damage(random: &mut Random, lot: &mut Lot) {
    for _ in 0..random.within(1..=3) {
        let bit = random.within(0..=7);
        if random.percent(60) {
            let record = 16 * random.within(0..=14) + 4 * random.within(0..=3);
            lot.records[MARGIN + record as usize] ^= 1 << bit;
        } else {
            let place = random.within(0..=91) as usize;
            lot.words[MARGIN + place] ^= 1 << (bit + 8 * random.within(0..=5));
        }
    }
}

/// Only the first two places of an answer are written, and the words behind the
/// counters and behind the state are left alone.
fn long_answer() -> Checked {
    each(|(name, exported), _| {
        let (mut lot, mut counters) = prepared()?;
        lot.answer = noise(5, 5);
        lot.words.extend([3; 4]);
        let before = lot.clone();
        same(name, exported(lot.lent(), &mut counters), 0)?;
        same(name, &lot.answer[MARGIN + 2..], &before.answer[MARGIN + 2..])?;
        same(name, &lot.answer[..MARGIN], &before.answer[..MARGIN])?;
        same(name, &lot.words[MARGIN + 101..], &before.words[MARGIN + 101..])
    })?;
    let (_, exported) = CALL;
    let (mut lot, mut counters) = prepared()?;
    let before = lot.words[MARGIN + 92..].to_vec();
    same("call", exported(lot.lent(), &mut counters), 0)?;
    same("call, words behind", &lot.words[MARGIN + 92..], &before[..])
}

/// The lowest number that applies: a map that is refused, and short loans.
fn many_and_short() -> Checked {
    let (mut lot, _) = prepared()?;
    let far = ffi::Entry { start: 1 << 41, length: 1, kind: 0 };
    for (map, number) in [(&[far; 9][..], 1), (&[far], 2)] {
        let before = lot.clone();
        let Lent { words, records, memory, queue, answer } = lot.lent();
        let (words, answer) = (&mut words[..5], &mut answer[..1]);
        let lent = Lent { words, records, memory, queue, answer };
        same("a boot", ffi::boot(map, lent), number)?;
        same("a boot", lot.difference(&before), None)?;
    }
    Ok(())
}

/// All kinds of entries but 0 are passed by, whatever their numbers.
fn kinds() -> Checked {
    let (mut lot, _) = prepared()?;
    let passed = |kind: u64| ffi::Entry { start: u64::MAX, length: u64::MAX, kind };
    let usable = ffi::Entry { start: 0x1001, length: 0x4000, kind: 0 };
    let map = [passed(1), passed(2), usable, passed(3), passed(1 << 32), passed(u64::MAX)];
    same("a boot", (ffi::boot(&map, lot.lent()), lot.answered()), (0, [0, 8192]))?;
    same("a grant", (ffi::alloc(lot.lent(), 1, 1, 8), lot.answered()), (0, [0x4000, 4096]))
}
