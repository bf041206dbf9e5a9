//! What must hold over generated files. A failure names seed and number of the
//! case; SECOND_SEED and SECOND_COUNT choose others.

mod common;

use common::indexed::indexed;
use common::{count, first_sample_fault, is_run, lent, seed, tuples, word_places, word_width};
use common::{File, PINGS};
use second::gen::{
    big_limit, big_limit_count, equal_pair, file_case, limit, limit_count, unequal_pair, Case, Rng,
};
use second::layout::{class, Class, PING_U32};
use second::pings::*;
use second::records::*;
use second::walk::{backward, forward, Step, Tuple};
use second::{check, content, normalise, parents, Answer, Entry, Order, PingKind};
use second::{DocumentId, Maker, SoftwareChannel};

/// Runs over the generated file cases.
fn each_case(cases: u64, mut judge: impl FnMut(&Case, &str)) {
    let seed = seed();
    for index in 0..count(cases) {
        for case in file_case(seed, index) {
            judge(&case, &format!("seed {seed} case {index} {}", case.name));
        }
    }
}

/// The check gives what the making of a case tells.
#[test]
fn expected_answers() {
    let mut told = 0;
    each_case(16000, |case, name| {
        let answer = check(&case.bytes);
        assert_eq!(answer.length, 0, "{name}");
        if let Some(expected) = case.expected {
            assert_eq!((answer.code, answer.place), expected, "{name}");
            told += 1;
        }
        let walked = if answer.code == 0 {
            tuples(&case.bytes).len() as u64
        } else {
            0
        };
        assert_eq!(answer.tuples, walked, "{name}");
    });
    assert!(told * 2 > count(16000), "too few cases told their answer");
}

/// The check's answer to a case, which must be the one that its making tells.
fn answer_expected(case: &Case) -> Answer {
    let answer = check(&case.bytes);
    assert_eq!(
        Some((answer.code, answer.place)),
        case.expected,
        "{}",
        case.name
    );
    answer
}

#[test]
fn limits() {
    for case in (0..limit_count()).flat_map(limit) {
        answer_expected(&case);
        normal_form_holds(&case.bytes, &case.name);
    }
}

/// Files of about 16 MiB: at the limit and past it, and normal forms so too.
#[test]
fn big_limits() {
    for nth in 0..big_limit_count() {
        let case = big_limit(nth);
        let answer = answer_expected(&case);
        let mut out = lent(16_777_216 + 8);
        let written = normalise(&case.bytes, &mut out);
        match nth {
            1 | 4 => {
                let accepted = Answer {
                    length: 16_777_216,
                    ..answer
                };
                assert_eq!(written, accepted, "{}", case.name);
                // the first of them has an index tuple already
                let tuples = answer.tuples + u64::from(nth == 4);
                let checked = check(&out[..16_777_216]);
                assert_eq!(checked, Answer { tuples, ..answer }, "{}", case.name);
                assert_eq!(out[16_777_216..], lent(16_777_224)[16_777_216..]);
                let short = &mut out[..16_777_215];
                assert_eq!(normalise(&case.bytes, short), Answer::refused(19, 0));
            }
            0 | 5 => {
                assert_eq!(written, Answer::refused(20, 0), "{}", case.name);
                assert_eq!(normalise(&case.bytes, &mut []), Answer::refused(20, 0));
                assert!(out == lent(16_777_224), "{}", case.name);
            }
            _ => {
                assert_eq!(written, Answer::refused(1, 0), "{}", case.name);
                assert!(out == lent(16_777_224), "{}", case.name);
            }
        }
    }
}

/// A file's normal form, or its refusal; lent memory is watched on the way.
fn normal_form(file: &[u8], name: &str) -> Result<Vec<u8>, Answer> {
    let room = 2 * file.len() + 64;
    let mut out = lent(room);
    let answer = normalise(file, &mut out);
    let checked = check(file);
    if answer.code != 0 {
        let refusal = Answer::refused(answer.code, answer.place);
        assert_eq!(answer, refusal, "{name}");
        assert_eq!(out, lent(room), "{name}: refused, yet bytes altered");
        if checked.code != 0 {
            assert_eq!(answer, checked, "{name}");
        }
        return Err(answer);
    }
    let length = answer.length as usize;
    let accepted = Answer {
        length: answer.length,
        ..checked
    };
    assert_eq!(answer, accepted, "{name}");
    assert_eq!(
        out[length..],
        lent(room)[length..],
        "{name}: bytes past the length"
    );

    let mut exact = lent(length);
    assert_eq!(normalise(file, &mut exact), answer, "{name}: exact room");
    assert_eq!(exact, out[..length], "{name}");

    let mut short = lent(length - 1);
    assert_eq!(
        normalise(file, &mut short),
        Answer::refused(19, 0),
        "{name}: short by one"
    );
    assert_eq!(short, lent(length - 1), "{name}");

    out.truncate(length);
    Ok(out)
}

/// Accepted, content kept, its own normal form, and of normal shape.
fn normal_form_holds(file: &[u8], name: &str) {
    let normal = match normal_form(file, name) {
        Ok(normal) => normal,
        Err(refusal) => {
            let past = refusal.code == 20 && name.contains("16mib");
            if check(file).code == 0 && !past {
                assert_eq!(refusal.code, 18, "{name}");
                assert_eq!(Order::of(file), Some(Order::Msb), "{name}");
            }
            return;
        }
    };
    let again = check(&normal);
    assert_eq!(again.code, 0, "{name}");
    assert_eq!(again.compared, check(file).compared, "{name}");
    let kept = content(&normal).expect("an accepted file");
    assert!(
        content(file).expect("an accepted file") == kept,
        "{name}: content"
    );
    assert_eq!(
        normal_form(&normal, name).as_ref(),
        Ok(&normal),
        "{name}: own normal form"
    );
    assert_eq!(Order::of(&normal), Some(Order::Lsb));
    assert_eq!(indexed(&normal), normal, "{name}: its index");
    let found = tuples(&normal);
    assert_eq!(found.len(), kept.len() + 1, "{name}");
    let in_index_class = |tuple: &&Tuple| class(tuple.code) == Some(Class::Index);
    assert_eq!(found.iter().filter(in_index_class).count(), 1, "{name}");
    for tuple in found {
        if PINGS.contains(&tuple.code.into()) {
            assert!(is_normal_ping(&normal, &tuple), "{name}");
        }
    }
}

/// A ping of the normal form: its spaces are 0; a run behind which another comes is a full
/// one; CE-16 has no second 0; and one of words that could be numbered ends in a run.
fn is_normal_ping(normal: &[u8], tuple: &Tuple) -> bool {
    let file = File::new(normal).unwrap();
    let (at, code) = (tuple.place as usize, u64::from(tuple.code));
    let end = tuple.end() as usize - 8;
    if code == 10031 {
        let samples = (end - at - 24) / 6 * 6;
        return normal[at + 24 + samples..end].iter().all(|byte| *byte == 0);
    }
    if ![10010, 10040, 10050].contains(&code) {
        return true;
    }
    let places = word_places(&file, at, end, code);
    let behind = places.last().unwrap() + word_width(code);
    let spaces = normal[behind..end].iter().all(|byte| *byte == 0);
    let words: Vec<u64> = places
        .iter()
        .map(|place| file.number(*place, word_width(code)))
        .collect();
    let run = |word: &u64| is_run(code, *word);
    let full = (1 << (8 * word_width(code))) - 1;
    let mut neighbours = words.windows(2);
    let full_first = neighbours.all(|pair| !pair.iter().all(run) || pair[0] == full);
    let radix = 1 << (4 * word_width(code));
    let samples: u64 = words
        .iter()
        .map(|word| if run(word) { word % radix + 1 } else { 1 })
        .sum();
    let ends = words.last().is_some_and(run);
    let must = match code {
        10050 => !words.contains(&0x8000),
        10040 => ends || samples > 65_536,
        _ => ends,
    };
    spaces && full_first && must
}

#[test]
fn normal_forms() {
    each_case(16000, |case, name| normal_form_holds(&case.bytes, name));
}

#[test]
fn pairs_of_equal_content() {
    let seed = seed();
    let mut unlike = 0;
    for index in 0..count(8000) {
        let name = format!("seed {seed} equal pair {index}");
        let (a, b) = equal_pair(&mut Rng::of_case(seed, index));
        unlike += u64::from(a != b);
        assert!(content(&a).unwrap() == content(&b).unwrap(), "{name}");
        assert_eq!(
            normal_form(&a, &name).unwrap(),
            normal_form(&b, &name).unwrap(),
            "{name}"
        );
    }
    assert!(unlike * 2 > count(8000), "too few pairs of unlike bytes");
}

#[test]
fn pairs_of_unequal_content() {
    let seed = seed();
    for index in 0..count(8000) {
        let name = format!("seed {seed} unequal pair {index}");
        let (a, b) = unequal_pair(&mut Rng::of_case(seed, index));
        assert!(content(&a).unwrap() != content(&b).unwrap(), "{name}");
        assert_ne!(
            normal_form(&a, &name).unwrap(),
            normal_form(&b, &name).unwrap(),
            "{name}"
        );
    }
}

/// Forward from 4 and backward from the end meet the same tuples.
#[test]
fn walks_agree() {
    each_case(8000, |case, name| {
        let file = &case.bytes;
        if check(file).code != 0 {
            return;
        }
        let mut back = Vec::new();
        let mut place = file.len() as u64;
        loop {
            match backward(file, place) {
                Step::Tuple { tuple, next } => {
                    assert_eq!(tuple.end(), place, "{name}");
                    assert_eq!(tuple.place, next, "{name}");
                    back.push(tuple);
                    place = next;
                }
                Step::End => break,
                Step::Refused(refusal) => panic!("{name}: {refusal:?}"),
            }
        }
        assert_eq!(place, 4);
        back.reverse();
        assert_eq!(back, tuples(file), "{name}");
    });
}

/// Steps, readers and the asking for parents answer at every place, sound or
/// not, and a refusal leaves the lent slices.
#[test]
fn any_place_answers() {
    let mut rng = Rng::new(seed());
    each_case(1500, |case, name| {
        let file = &case.bytes;
        let checked = check(file);
        for _ in 0..12 {
            let place = match rng.below(5) {
                0 => rng.number(),
                1 => rng.below(24),
                2 => 4 + 4 * rng.below(file.len() as u64 / 4 + 1),
                _ => rng.below(file.len() as u64 + 8),
            };
            let at = format!("{name} at {place}");
            for step in [forward(file, place), backward(file, place)] {
                match step {
                    Step::Tuple { tuple, .. } => {
                        assert!(tuple.place >= 4 && tuple.end() <= file.len() as u64, "{at}");
                        assert_eq!(tuple.bytes(file).len() as u64, tuple.length, "{at}");
                    }
                    Step::End => {}
                    Step::Refused(refusal) => {
                        assert_eq!(refusal, Answer::refused(refusal.code, place), "{at}");
                        assert!([1, 2, 3, 5, 6].contains(&refusal.code), "{at}");
                    }
                }
            }
            let (mut numbers, mut values) = ([77; 20], [77; 20]);
            let answer = read_samples(file, place, &mut numbers, &mut values);
            if answer.code != 0 {
                match answer.code {
                    1 | 2 | 3 | 5 | 6 | 9 => assert_eq!(answer.place, place, "{at}"),
                    19 => assert_eq!(answer.place, 0, "{at}"),
                    code => {
                        let file = File::new(file).expect("a mark");
                        let fault = first_sample_fault(&file, place as usize);
                        assert_eq!(Some((code, answer.place)), fault, "{at}");
                    }
                }
                assert_eq!((numbers, values), ([77; 20], [77; 20]), "{at}");
            }
            match parents(file, place) {
                Ok((answer, _)) => assert_eq!(answer, checked, "{at}"),
                Err(refusal) if checked.code != 0 => assert_eq!(refusal, checked, "{at}"),
                Err(refusal) => assert_eq!(refusal, Answer::refused(9, place), "{at}"),
            }
        }
    });
}

/// The codes that all readers of a file give at a place.
fn reader_codes(file: &[u8], place: u64) -> Vec<(u16, u32)> {
    fn code<T>(reply: Result<(Answer, T), Answer>) -> u32 {
        match reply {
            Ok((answer, _)) => {
                assert_eq!(answer, Answer::accepted(1, 0));
                0
            }
            Err(refusal) => refusal.code,
        }
    }
    vec![
        (Signature::CODE, code(Signature::read(file, place))),
        (Echosounder::CODE, code(Echosounder::read(file, place))),
        (Channel::CODE, code(Channel::read(file, place))),
        (Ek500Sounder::CODE, code(Ek500Sounder::read(file, place))),
        (Ek500Channel::CODE, code(Ek500Channel::read(file, place))),
        (Position::CODE, code(Position::read(file, place))),
        (Navigation::CODE, code(Navigation::read(file, place))),
        (Attitude::CODE, code(Attitude::read(file, place))),
        (Threshold::CODE, code(Threshold::read(file, place))),
        (EventMarker::CODE, code(EventMarker::read(file, place))),
        (StartOfRun::CODE, code(StartOfRun::read(file, place))),
        (EndOfRun::CODE, code(EndOfRun::read(file, place))),
        (EndOfFile::CODE, code(EndOfFile::read(file, place))),
        (PING_U32, code(Ping::read(file, place))),
    ]
}

/// Of an accepted file, each tuple is taken by its own reader alone; at the
/// end all readers give 3.
#[test]
fn readers_take_their_own_type() {
    each_case(1500, |case, name| {
        let file = &case.bytes;
        if check(file).code != 0 {
            return;
        }
        for tuple in tuples(file) {
            for (code, given) in reader_codes(file, tuple.place) {
                let ping = code == PING_U32 && PingKind::of(tuple.code).is_some();
                let expected = if code == tuple.code || ping { 0 } else { 9 };
                assert_eq!(given, expected, "{name}, {} at {}", tuple.code, tuple.place);
            }
        }
        for (_, given) in reader_codes(file, file.len() as u64) {
            assert_eq!(given, 3, "{name}");
        }
    });
}

/// What the channel tuple at a place declares, and whose it is: its identifier, its
/// sounder's, its sampling rate and its type of data sample.
type Declared = (Maker, SoftwareChannel, DocumentId, u32, u16);

fn channel_at(file: &[u8], place: u64) -> Declared {
    macro_rules! declared {
        ($maker:ident, $record:ident) => {
            if let Ok((_, channel)) = $record::read(file, place) {
                return (
                    Maker::$maker,
                    channel.software_channel_identifier,
                    channel.echosounder_document_identifier,
                    channel.sampling_rate,
                    channel.type_of_data_sample,
                );
            }
        };
    }
    declared!(Biosonics, Channel);
    declared!(Simrad, Ek500Channel);
    panic!("no channel at {place}")
}

/// What the sounder tuple at a place declares, and whose it is.
fn sounder_at(file: &[u8], place: u64) -> (Maker, DocumentId) {
    if let Ok((_, sounder)) = Echosounder::read(file, place) {
        return (Maker::Biosonics, sounder.echosounder_document_identifier);
    }
    let (_, sounder) = Ek500Sounder::read(file, place).expect("a sounder");
    (Maker::Simrad, sounder.echosounder_document_identifier)
}

/// Parents are declared where they are said to be, both by one maker, and every
/// other place in the file is refused.
#[test]
fn parents_of_pings() {
    let mut asked = [0, 0];
    each_case(2000, |case, name| {
        let file = &case.bytes;
        let checked = check(file);
        if checked.code != 0 {
            return;
        }
        let found = tuples(file);
        let starts: Vec<u64> = found.iter().map(|tuple| tuple.place).collect();
        // Asking checks the whole file each time: of many tuples some are asked at.
        let apart = if found.len() > 150 {
            found.len() / 10
        } else {
            1
        };
        for tuple in found.into_iter().rev().step_by(apart) {
            let reply = parents(file, tuple.place);
            if PingKind::of(tuple.code).is_none() {
                assert_eq!(reply, Err(Answer::refused(9, tuple.place)), "{name}");
                continue;
            }
            let (answer, linked) = reply.unwrap();
            assert_eq!(answer, checked, "{name}");
            for near in (1..=16).flat_map(|n| [tuple.place + n, tuple.place.saturating_sub(n)]) {
                if !starts.contains(&near) {
                    assert_eq!(parents(file, near), Err(Answer::refused(9, near)), "{name}");
                }
            }
            let (_, ping) = Ping::read(file, tuple.place).unwrap();
            let (maker, sounder) = sounder_at(file, linked.sounder_place);
            assert_eq!(
                ping.header.software_channel_identifier, linked.channel,
                "{name}"
            );
            assert_eq!(
                channel_at(file, linked.channel_place),
                (
                    maker,
                    linked.channel,
                    linked.sounder,
                    linked.sampling_rate,
                    linked.type_of_data_sample
                ),
                "{name}"
            );
            assert_eq!(sounder, linked.sounder, "{name}");
            assert!(linked.sounder_place < linked.channel_place, "{name}");
            assert!(linked.channel_place < tuple.place, "{name}");
            asked[usize::from(maker == Maker::Simrad)] += 1;
        }
    });
    assert!(asked.iter().all(|times| *times > 100), "{asked:?}");
}

/// A place inside a tuple is no start, even where bytes there look like a
/// ping: the event marker's text below is one.
#[test]
fn a_ping_in_a_text_has_no_parents() {
    let mut found = false;
    each_case(400, |case, name| {
        let file = &case.bytes;
        if found || check(file).code != 0 || Order::of(file) != Some(Order::Lsb) {
            return;
        }
        let all = tuples(file);
        let Some(ping) = all.iter().find(|tuple| tuple.code == PING_U32) else {
            return;
        };
        let marker = EventMarker {
            time_fraction: 0,
            time_cpu_ansi_c_standard_time: 0,
            text: ping.bytes(file),
            tuple_attribute: 0,
        };
        let mut tuple = vec![0; ping.length as usize + 20];
        assert_eq!(marker.write(Order::Lsb, &mut tuple).code, 0);
        let end = all.last().unwrap().place as usize;
        let mut with_text = file.clone();
        with_text.splice(end..end, tuple);
        assert_eq!(check(&with_text).tuples, check(file).tuples + 1, "{name}");
        let inside = end as u64 + 12;
        assert!(Ping::read(&with_text, inside).is_ok(), "{name}");
        assert_eq!(
            parents(&with_text, inside),
            Err(Answer::refused(9, inside)),
            "{name}"
        );
        assert!(parents(&with_text, ping.place).is_ok(), "{name}");
        found = true;
    });
    assert!(found);
}

/// The content of a file tells samples apart from silence, has the length of what
/// ends in silence, and one type for both kinds of ping.
#[test]
fn content_has_all_kinds() {
    let (mut pings, mut silent, mut lengths, mut fields, mut unlisted) = (0, 0, 0, 0, 0);
    let mut angles = 0;
    each_case(600, |case, _| {
        for entry in content(&case.bytes).unwrap_or_default() {
            match entry {
                Entry::Ping {
                    samples, length, ..
                } if samples.is_empty() => {
                    assert!(length.is_some_and(|length| length > 0));
                    silent += 1;
                }
                Entry::Ping {
                    samples, length, ..
                } => {
                    assert!(samples.windows(2).all(|pair| pair[0].0 < pair[1].0));
                    let last = samples.last().map(|(number, _)| *number);
                    assert!(length.is_none() || length > last.map(|last| last + 1));
                    pings += 1;
                    lengths += u64::from(length.is_some());
                }
                Entry::Angles { samples, .. } => {
                    assert!(!samples.is_empty());
                    assert!(samples.windows(2).all(|pair| pair[0].0 < pair[1].0));
                    angles += 1;
                }
                Entry::Fields { .. } => fields += 1,
                Entry::Unlisted { .. } => unlisted += 1,
            }
        }
    });
    assert!(pings > 100 && silent > 20 && lengths > 50 && fields > 500 && unlisted > 50);
    assert!(angles > 20);
}
