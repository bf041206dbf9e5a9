//! An index that stays true: against 02's sentences, said once more and slowly; what must hold
//! of every file; and files made by hand.

mod common;

use common::indexed::{divided, indexed, is_index, reindexed, without_index};
use common::{bytes, count, lent, marked, seed, survey, tuples, written, Bytes, FIRST_PING};
use second::gen::{big_edit, big_edit_count, edit_case, file_case, Case, Edit, Rng};
use second::layout::{class, Class};
use second::programs::normalise_tuple;
use second::{append, check, content, index, normalise, remove, Answer, Order};
use std::collections::BTreeMap;

/// The call of an edit.
fn call(file: &[u8], edit: &Edit, out: &mut [u8]) -> Answer {
    match edit {
        Edit::Index => index(file, out),
        Edit::Append(bytes) => append(file, bytes, out),
        Edit::Remove(place) => remove(file, *place, out),
    }
}

/// What a call writes, or its refusal, by 02 and its readings.
fn defined(file: &[u8], edit: &Edit) -> Result<Vec<u8>, Answer> {
    let accepted = |file: &[u8]| match check(file) {
        answer if answer.is_accepted() => Ok(()),
        refusal => Err(refusal),
    };
    accepted(file)?;
    let mark = &file[..4];
    let (mut items, rest) = divided(file);
    assert!(rest.is_empty());
    match edit {
        Edit::Index => {}
        Edit::Append(bytes) if bytes.len() > 16_777_216 => return Err(Answer::refused(1, 0)),
        Edit::Append(bytes) => {
            let end = items.pop().unwrap();
            let (more, rest) = divided(&[mark, bytes].concat());
            items.extend(more);
            if !rest.is_empty() {
                let broken = check(&without_index(mark, &items, &rest));
                assert!(!broken.is_accepted());
                return Err(broken);
            }
            items.push(end);
        }
        Edit::Remove(place) => {
            let mut starts = items.iter().map(|(start, ..)| *start as u64);
            let nth = starts.position(|start| start == *place);
            items.remove(nth.ok_or(Answer::refused(3, *place))?);
        }
    }
    let result = reindexed(mark, items);
    accepted(&result)?;
    Ok(result)
}

/// A call that is refused and alters nothing.
fn refused(file: &[u8], edit: &Edit, room: usize, refusal: Answer, name: &str) {
    let mut out = lent(room);
    assert_eq!(call(file, edit, &mut out), refusal, "{name}");
    assert!(out == lent(room), "{name}: refused, yet bytes altered");
}

/// A call does what is defined, however much it is lent; gives what it writes, or its refusal.
fn judge(file: &[u8], edit: &Edit, name: &str) -> Result<Vec<u8>, Answer> {
    let expected = defined(file, edit);
    match &expected {
        Err(refusal) => {
            assert_eq!(*refusal, Answer::refused(refusal.code, refusal.place));
            for room in [0, file.len() + 100] {
                refused(file, edit, room, *refusal, name);
            }
        }
        Ok(result) => {
            let n = result.len();
            let answer = Answer {
                length: n as u64,
                ..check(file)
            };
            for room in [n, n + 1, n + 40] {
                let mut out = lent(room);
                assert_eq!(call(file, edit, &mut out), answer, "{name}");
                assert!(out[..n] == result[..], "{name}: other bytes");
                assert_eq!(out[n..], lent(room)[n..], "{name}: bytes past the length");
            }
            for room in [n - 1, n - 4, 4, 0] {
                refused(file, edit, room, Answer::refused(19, 0), name);
            }
        }
    }
    expected
}

#[test]
fn edits_are_what_02_says() {
    let seed = seed();
    let mut seen: BTreeMap<(&str, u32), u64> = BTreeMap::new();
    for number in 0..count(1600) {
        let case = edit_case(seed, number);
        for (nth, edit) in case.edits.iter().enumerate() {
            let name = format!("seed {seed} case {number} {} edit {nth}", case.name);
            let code = judge(&case.file, edit, &name).map_or_else(|refusal| refusal.code, |_| 0);
            let what = match edit {
                Edit::Index => "index",
                Edit::Append(_) => "append",
                Edit::Remove(_) => "remove",
            };
            // what the file is refused for counts for none
            if check(&case.file).is_accepted() {
                *seen.entry((what, code)).or_default() += 1;
            }
        }
    }
    for (what, codes) in [
        ("index", &[0][..]),
        (
            "append",
            &[0, 3, 5, 6, 7, 9, 11, 12, 13, 14, 15, 17, 23, 24, 25],
        ),
        ("remove", &[0, 3, 4, 7, 13, 16, 17]),
    ] {
        let given = seen.keys().filter(|(of, _)| *of == what);
        let given: Vec<u32> = given.map(|(_, code)| *code).collect();
        assert_eq!(given, codes, "{what}: {seen:?}");
    }
}

/// Whatever the file: sound, damaged or at a limit.
#[test]
fn any_file() {
    let seed = seed();
    let mut rng = Rng::new(seed);
    for index in 0..count(3000) {
        for Case { name, bytes, .. } in file_case(seed, index) {
            let name = format!("seed {seed} case {index} {name}");
            if bytes.len() > 1 << 20 {
                continue; // big_edits has such
            }
            let places = common::tuples_found(&bytes);
            let place = match rng.below(4) {
                0 => rng.below(bytes.len() as u64 + 8),
                _ if places.is_empty() => 4,
                _ => places[rng.index(places.len())].place,
            };
            let more = match rng.below(3) {
                0 => bytes.get(4..).unwrap_or_default().to_vec(),
                1 => places
                    .last()
                    .map_or(&[][..], |last| last.bytes(&bytes))
                    .to_vec(),
                _ => rng.bytes(40),
            };
            for edit in [Edit::Index, Edit::Append(more), Edit::Remove(place)] {
                let _ = judge(&bytes, &edit, &name);
            }
        }
    }
}

/// Results at the limit and past it.
#[test]
fn limits() {
    const LIMIT: usize = 16_777_216;
    #[rustfmt::skip]
    let told: [&[u32]; 5] = [&[1, 0, 1], &[1, 1, 3, 4], &[0, 1, 3, 5, 1], &[0, 1], &[0, 1]];
    assert_eq!(2 * told.len(), big_edit_count());
    for nth in 0..big_edit_count() {
        let case = big_edit(nth);
        let mut longest = 0;
        let codes = case.edits.iter().map(|edit| {
            match judge(&case.file, edit, &case.name) {
                Ok(result) => longest = longest.max(result.len()),
                Err(refusal) => return refusal.code,
            }
            0
        });
        assert_eq!(codes.collect::<Vec<u32>>(), told[nth / 2], "{}", case.name);
        let at_limit = case.name.contains("-at-") || case.name.contains("-appended-");
        assert_eq!(longest == LIMIT, at_limit, "{}", case.name);
    }
}

/// Of an accepted file that is indexed: the check accepts it with as many comparisons, it has one
/// index more than it had, or none where it had one, its content is kept, so is its normal form,
/// and writing the index again alters nothing.
#[test]
fn an_index_is_no_content() {
    let seed = seed();
    for number in 0..count(2000) {
        let case = edit_case(seed, number);
        let name = format!("seed {seed} case {number} {}", case.name);
        let Ok(indexed) = judge(&case.file, &Edit::Index, &name) else {
            continue;
        };
        assert_eq!(judge(&indexed, &Edit::Index, &name), Ok(indexed.clone()));
        let (before, behind) = (check(&case.file), check(&indexed));
        assert_eq!(behind.compared, before.compared, "{name}");
        let index_class = |file: &[u8]| {
            let all = tuples(file).into_iter();
            all.filter(|tuple| class(tuple.code) == Some(Class::Index))
                .count() as u64
        };
        assert_eq!(
            behind.tuples,
            before.tuples - index_class(&case.file) + 1,
            "{name}"
        );
        assert_eq!(index_class(&indexed), 1, "{name}");
        assert!(content(&case.file) == content(&indexed), "{name}");
        let normal = |file: &[u8]| {
            let mut out = lent(2 * file.len() + 200);
            let answer = normalise(file, &mut out);
            out.truncate(answer.length as usize);
            (answer.code, answer.length, out)
        };
        assert_eq!(normal(&case.file).2, normal(&indexed).2, "{name}");
    }
}

/// What is appended at once may be appended tuple by tuple, and what was appended can be removed:
/// then the file is as it was indexed.
#[test]
fn an_append_is_undone_by_removals() {
    let seed = seed();
    let mut undone = 0;
    for number in 0..count(2000) {
        let case = edit_case(seed, number);
        let name = format!("seed {seed} case {number} {}", case.name);
        let Ok(indexed) = defined(&case.file, &Edit::Index) else {
            continue;
        };
        let mark = &case.file[..4];
        for edit in &case.edits {
            let Edit::Append(bytes) = edit else { continue };
            let Ok(appended) = judge(&case.file, edit, &name) else {
                continue;
            };
            let (items, _) = divided(&[mark, bytes].concat());
            // one by one a channel and its sounder's count don't pass the check
            let alone = |code: &u64| ![100, 200, 1000, 2000].contains(code);
            if items.iter().all(|(_, code, _)| alone(code)) {
                let one_by_one = items.iter().fold(indexed.clone(), |file, (_, _, bytes)| {
                    judge(&file, &Edit::Append(bytes.clone()), &name).expect("a sound tuple")
                });
                assert_eq!(one_by_one, appended, "{name}");
                let kept = items.iter().filter(|(_, code, _)| !is_index(*code)).count();
                let mut file = appended;
                for _ in 0..kept {
                    let all = tuples(&file);
                    let last = all[all.len() - 3].place; // before index and end
                    file = judge(&file, &Edit::Remove(last), &name).expect("what was sound");
                }
                assert_eq!(file, indexed, "{name}");
                undone += kept;
            }
        }
    }
    assert!(undone > 500, "{undone}");
}

/// A tuple of zeros behind its type.
fn tuple(order: Order, code: u16, length: usize) -> Vec<u8> {
    let mut tuple = Bytes::new(order);
    tuple.tuple(code, length, |_| {});
    tuple.bytes
}

/// A U-32 ping of one sample, of a channel.
fn ping(order: Order, channel: u16) -> Vec<u8> {
    let mut ping = Bytes::new(order);
    ping.tuple(10000, 40, |bytes| {
        bytes.two(0);
        bytes.four(0);
        bytes.two(channel);
    });
    ping.bytes
}

/// A sounder or channel: its first two fields.
fn declaring(order: Order, code: u16, two: u16, four: u32) -> Vec<u8> {
    let mut tuple = Bytes::new(order);
    let length = if code == 100 { 72 } else { 108 };
    tuple.tuple(code, length, |bytes| {
        bytes.two(two);
        bytes.four(four);
    });
    tuple.bytes
}

/// A file of one ping: 4 signature, 28 sounder, 100 channel, 208 position, 244 ping, 284 end of
/// file, 308 bytes.
fn small(order: Order) -> Vec<u8> {
    survey(order, |file| file.bytes.extend(ping(order, 1)))
}

const END: usize = FIRST_PING as usize + 40;

/// The index of the small file, by Table 14 and by hand.
fn small_index(order: Order) -> Vec<u8> {
    bytes(match order {
        Order::Lsb => "16000000 7eff 0000 00000000 1400 6400 e803 1027 feff ffff 00000000 20000000",
        Order::Msb => "00000016 ff7e 0000 00000000 0014 0064 03e8 2710 fffe ffff 00000000 00000020",
    })
}

/// What a call writes, and that the definition says the same.
fn result(file: &[u8], edit: Edit) -> Vec<u8> {
    judge(file, &edit, &format!("{edit:?}")).expect("an accepted call")
}

/// The code and the place of a call's refusal.
fn refusal(file: &[u8], edit: Edit) -> (u32, u64) {
    let refusal = judge(file, &edit, &format!("{edit:?}")).expect_err("a refused call");
    (refusal.code, refusal.place)
}

#[test]
fn an_index_by_hand() {
    for order in Order::BOTH {
        let file = small(order);
        assert_eq!(file.len(), END + 24);
        let (before, end) = file.split_at(END);
        let expected = [before, &small_index(order), end].concat();
        assert_eq!(result(&file, Edit::Index), expected);
        assert_eq!(result(&expected, Edit::Index), expected);
        let mut out = lent(400);
        assert_eq!(index(&file, &mut out), Answer::checked(6, 340, 2));
        assert_eq!(index(&expected, &mut out), Answer::checked(7, 340, 2));
    }
}

/// A ping of words: its header's channel, how many of them are values, and these.
fn words(order: Order, code: u16, count: u32, words: [u32; 2]) -> Vec<u8> {
    let mut ping = Bytes::new(order);
    let length = if code == 10010 { 44 } else { 40 };
    ping.tuple(code, length, |bytes| {
        for number in [0, 0, 0, 1, 0, 0, 0, 0, 0] {
            bytes.two(number);
        }
        bytes.four(count);
        for word in words {
            match code {
                10010 => bytes.four(word),
                _ => bytes.two(word as u16),
            }
        }
    });
    ping.bytes
}

/// The normal form has its own tuples' types: a ping that becomes another kind has that one's,
/// whatever the file's own index said; and all spellings have one normal form, index and all.
#[test]
fn the_normal_form_has_its_own_types() {
    for order in Order::BOTH {
        // a value last, and a run last, in words of four bytes and of two
        let values = [
            words(order, 10010, 2, [5, 6]),
            words(order, 10040, 2, [5, 6]),
        ];
        let runs = [
            words(order, 10010, 1, [5, 0xFFFF_0000]),
            words(order, 10040, 1, [5, 0xFF00]),
        ];
        for (pings, index) in [
            (
                values.concat(),
                "1a000000 7eff 0000 00000000 1400 6400 e803 1027 2e27 feff ffff 0000 00000000 24000000",
            ),
            (
                runs.concat(),
                "1a000000 7eff 0000 00000000 1400 6400 e803 1a27 3827 feff ffff 0000 00000000 24000000",
            ),
            (
                [values.concat(), runs.concat()].concat(),
                "1e000000 7eff 0000 00000000 1400 6400 e803 1027 1a27 2e27 3827 feff ffff 0000 \
                 00000000 28000000",
            ),
        ] {
            let file = survey(order, |file| file.bytes.extend(pings));
            let own = result(&file, Edit::Index);
            let normal = written(|out| normalise(&file, out));
            assert_eq!(written(|out| normalise(&own, out)), normal);
            let index = bytes(&index.replace(' ', ""));
            let start = normal.len() - 24 - index.len();
            assert_eq!(normal[start..normal.len() - 24], index, "{order:?}");
            assert_eq!(indexed(&normal), normal);
            let checked = check(&file);
            let tuples = checked.tuples + 1;
            assert_eq!(check(&normal), Answer { tuples, ..checked });
        }
    }
}

/// One tuple's normal form has no index, and an index's own is the mark alone.
#[test]
fn one_tuple_has_no_index() {
    for order in Order::BOTH {
        let alone = |tuple: &[u8]| [&order.mark()[..], tuple].concat();
        let normal = |tuple: &[u8]| written(|out| normalise_tuple(&alone(tuple), out));
        let mark = Order::Lsb.mark();
        assert_eq!(
            normal(&ping(order, 1)),
            [&mark[..], &ping(Order::Lsb, 1)].concat()
        );
        let end = tuple(Order::Lsb, 65534, 24);
        assert_eq!(normal(&tuple(order, 65534, 24)), [&mark[..], &end].concat());
        assert_eq!(normal(&small_index(order)), mark);
    }
}

/// Seven types: a space behind them, and four bytes more.
#[test]
fn an_odd_number_of_types_has_a_space() {
    for (order, expected) in [
        (
            Order::Lsb,
            "1a000000 7eff 0000 00000000 1400 1e00 6400 e803 1027 feff ffff 0000 00000000 24000000",
        ),
        (
            Order::Msb,
            "0000001a ff7e 0000 00000000 0014 001e 0064 03e8 2710 fffe ffff 0000 00000000 00000024",
        ),
    ] {
        let navigation = tuple(order, 30, 28);
        let file = result(&small(order), Edit::Append(navigation));
        assert_eq!(file[END + 28..END + 28 + 36], bytes(expected));
        assert_eq!(file.len(), END + 28 + 36 + 24);
    }
}

/// Wherever they stand, however many, whatever type of the class they have and whatever is in
/// them; but not the types beside the class.
#[test]
fn index_class_tuples_are_dropped() {
    for order in Order::BOTH {
        let file = small(order);
        let (before, end) = file.split_at(END);
        let expected = result(&file, Edit::Index);
        let mut stale = small_index(order);
        stale[13] ^= 1;
        for dropped in [
            vec![tuple(order, 65406, 16)],
            vec![tuple(order, 65515, 24)],
            vec![small_index(order), small_index(order)],
            vec![stale.clone()],
            vec![tuple(order, 65450, 262_144), stale, tuple(order, 65407, 20)],
        ] {
            let dropped = dropped.concat();
            for at in [28, 100, 208, 244, END] {
                let (a, b) = file.split_at(at);
                assert_eq!(result(&[a, &dropped, b].concat(), Edit::Index), expected);
            }
            let here = [before, &dropped, end].concat();
            assert_eq!(result(&here, Edit::Append(dropped.clone())), expected);
        }
        for (kept, list) in [(65405, [65405, 65534]), (65516, [65516, 65534])] {
            let kept = tuple(order, kept, 20);
            let file = result(&file, Edit::Append(kept.clone()));
            assert_eq!(file[END..END + 20], kept);
            let places = [END + 20 + 12 + 8, END + 20 + 12 + 10]; // the fifth and the sixth
            let listed = places.map(|at| u64::from(order.read_two(&file, at).unwrap()));
            assert_eq!(listed, list);
        }
    }
}

/// A tuple of every type that isn't listed: all of them are in the index once, however often they
/// come, with 0 and the types beside the class among them.
#[test]
fn an_index_of_all_types() {
    for order in Order::BOTH {
        let unlisted = |code: &u16| !second::layout::is_listed(*code);
        let codes: Vec<u16> = (0..=u16::MAX).rev().filter(unlisted).collect();
        let tuples: Vec<Vec<u8>> = codes.iter().map(|code| tuple(order, *code, 16)).collect();
        let all = [tuples.concat(), tuple(order, 0, 16)].concat();
        let file = result(&small(order), Edit::Append(all));
        let outside = |code: &u16| !is_index(u64::from(*code)) && unlisted(code);
        let types = (0..=u16::MAX).filter(outside).count() + 6;
        assert_eq!(types, 65_536 - 110 - 20 + 6);
        let length = 20 + 2 * types.next_multiple_of(2);
        let start = file.len() - 24 - length;
        let at = |nth: usize| order.read_two(&file, start + 12 + 2 * nth).unwrap();
        let listed: Vec<u16> = (0..types).map(at).collect();
        assert!(listed.windows(2).all(|pair| pair[0] < pair[1]));
        assert_eq!((listed[0], listed[types - 1]), (0, 65535));
        assert_eq!(listed[types - 4..], [65532, 65533, 65534, 65535]);
        assert!(listed.contains(&65405) && !listed.contains(&65406));
        assert!(!listed.contains(&65515) && listed.contains(&65518));
    }
}

/// As handed in, before the index and the end of file; no byte of them is altered.
#[test]
fn appended_tuples_stand_before_index_and_end() {
    for order in Order::BOTH {
        let file = small(order);
        let (before, end) = file.split_at(END);
        let second = ping(order, 1);
        let twice = [&second[..], &second].concat();
        // a space with something in it stays so
        let mut position = tuple(order, 20, 36);
        position[18] = 7;
        let more = [&twice[..], &position].concat();
        let expected = [before, &more, &small_index(order), end].concat();
        assert_eq!(result(&file, Edit::Append(more.clone())), expected);
        // those of the index class among them are dropped
        let index = tuple(order, 65410, 16);
        let strewn = [&index[..], &twice, &index, &position, &index].concat();
        assert_eq!(result(&file, Edit::Append(strewn)), expected);
        let mut out = lent(1000);
        let answer = append(&file, &more, &mut out);
        assert_eq!(answer, Answer::checked(6, expected.len() as u64, 2));
        // nothing appended, or nothing that is kept
        let indexed = result(&file, Edit::Index);
        assert_eq!(result(&file, Edit::Append(Vec::new())), indexed);
        assert_eq!(result(&file, Edit::Append(index)), indexed);
        assert_eq!(result(&indexed, Edit::Append(more)), expected);
    }
}

/// Rules of the check that a result breaks: the code and the place in the result.
#[test]
fn appends_that_break_a_rule() {
    let end = END as u64;
    for order in Order::BOTH {
        let file = small(order);
        let sound = ping(order, 1);
        let refused = |parts: &[&[u8]]| refusal(&file, Edit::Append(parts.concat()));
        assert_eq!(refused(&[&tuple(order, 65535, 24)]), (7, end));
        assert_eq!(refused(&[&tuple(order, 30, 32)]), (9, end));
        assert_eq!(refused(&[&declaring(order, 100, 0, 7)]), (12, end));
        assert_eq!(
            refused(&[&sound, &declaring(order, 1000, 1, 7)]),
            (12, end + 40)
        );
        assert_eq!(refused(&[&declaring(order, 1000, 2, 8)]), (13, end));
        assert_eq!(refused(&[&sound, &ping(order, 2)]), (13, end + 40));
        // its sounder states one
        assert_eq!(refused(&[&declaring(order, 1000, 2, 7)]), (17, 28));
        // a sounder of a channel, but that states none
        let sounder = declaring(order, 100, 0, 8);
        let channel = declaring(order, 1000, 2, 8);
        assert_eq!(refused(&[&sound, &sounder, &channel]), (17, end + 40));
        // what is dropped before them isn't in the result
        let index = tuple(order, 65406, 16);
        assert_eq!(
            refused(&[&index, &sound, &index, &ping(order, 2)]),
            (13, end + 40)
        );
        // one value is said to be two
        let miscounted = words(order, 10010, 2, [5, 0xFFFF_0000]);
        assert_eq!(refused(&[&miscounted]), (25, end + 24));
        let sounder = declaring(order, 100, 1, 8);
        let whole = [sounder, channel, ping(order, 2)].concat();
        result(&file, Edit::Append(whole));
    }
}

/// An end of file stands where it was handed in, before the index: what is behind it is 15,
/// whether it was handed in, too, or not.
#[test]
fn an_end_of_file_appended() {
    for order in Order::BOTH {
        let file = small(order);
        let (sound, ended) = (ping(order, 1), tuple(order, 65534, 24));
        let index = tuple(order, 65406, 16);
        for (parts, place) in [
            (&[&ended[..]][..], END + 24),
            (&[&sound, &ended], END + 40 + 24),
            (&[&ended, &sound], END + 24),
            (&[&ended, &ended], END + 24),
            (&[&index, &ended, &index], END + 24),
            (&[&ended, &[1, 2, 3]], END + 24),
        ] {
            let told = refusal(&file, Edit::Append(parts.concat()));
            assert_eq!(told, (15, place as u64));
        }
        // by its own rules first
        let unfit = tuple(order, 65534, 20);
        assert_eq!(refusal(&file, Edit::Append(unfit)), (9, END as u64));
    }
}

/// Bytes that don't divide into tuples to their end: an earlier broken rule, or 3, 5, 3 or 6 at
/// the first that is no tuple, with nothing behind it that could make it one.
#[test]
fn appended_bytes_that_are_no_tuples() {
    for order in Order::BOTH {
        let file = small(order);
        let (sound, index) = (ping(order, 1), tuple(order, 65406, 16));
        let cut = |bytes: &[u8], by: usize| bytes[..bytes.len() - by].to_vec();
        let with = |at: usize, byte: u8| {
            let mut altered = sound.clone();
            altered[at] = byte;
            altered
        };
        let low = if order == Order::Lsb { 0 } else { 3 };
        for (broken, code) in [
            (vec![0], 3),
            (vec![0; 15], 3),
            (vec![0; 16], 5),
            (cut(&sound, 1), 3),
            (cut(&sound, 4), 3),
            (cut(&sound, 26), 3),
            (cut(&index, 1), 3),
            // one that would reach into the index behind it
            (with(low, 54)[..20].to_vec(), 3),
            (with(low, 31), 5),
            (with(low, 34), 3),
            (with(36 + low, 44), 6),
            ([&sound[..], &file].concat().split_off(40), 5),
        ] {
            for (before, kept) in [
                (vec![], 0),
                (sound.clone(), 40),
                (index.clone(), 0),
                ([&index[..], &sound, &index].concat(), 40),
            ] {
                let told = refusal(&file, Edit::Append([before, broken.clone()].concat()));
                assert_eq!(told, (code, END as u64 + kept), "{broken:?}");
            }
            let orphan = [ping(order, 2), broken.clone()].concat();
            assert_eq!(refusal(&file, Edit::Append(orphan)), (13, END as u64));
        }
    }
}

/// Each tuple of a small file that has every kind.
#[test]
fn removals_by_hand() {
    for order in Order::BOTH {
        // behind the ping: a navigation, a second position, an index
        let more = [tuple(order, 30, 28), tuple(order, 20, 36)].concat();
        let file = result(&small(order), Edit::Append(more));
        let end = END + 28 + 36;
        let length = end + 36 + 24;
        assert_eq!(file.len(), length);
        let refused = |place: usize| refusal(&file, Edit::Remove(place as u64));
        let removed = |place: usize| result(&file, Edit::Remove(place as u64));
        let without = |from: usize, to: usize| [&file[..from], &file[to..]].concat();
        assert_eq!(refused(4), (7, 4));
        assert_eq!(refused(28), (13, 28), "the sounder");
        assert_eq!(refused(100), (13, 136), "the channel");
        // six types without that of the ping, and no space; so without that of the end of file
        assert_eq!(refused(244), (16, length as u64 - 40 - 4), "the only ping");
        assert_eq!(
            refused(end + 36),
            (4, length as u64 - 24 - 4),
            "the end of file"
        );
        // a position is left
        assert_eq!(removed(208), without(208, 244));
        assert_eq!(removed(end - 36), without(end - 36, end));
        // its type is in the index no more
        let (before, last) = (&file[..END], &file[length - 24..]);
        let expected = [before, &file[END + 28..end], &small_index(order), last].concat();
        assert_eq!(removed(END), expected, "navigation");
        assert_eq!(removed(end), file, "the index, which is written afresh");
        let mut out = lent(600);
        let answer = remove(&file, 208, &mut out);
        assert_eq!(answer, Answer::checked(9, length as u64 - 36, 2));
    }
}

/// A channel that nothing names is counted by its sounder; a sounder of none can be removed.
#[test]
fn removals_of_what_declares() {
    for order in Order::BOTH {
        let sounders = [declaring(order, 100, 0, 8), declaring(order, 100, 1, 9)];
        let more = [&sounders.concat()[..], &declaring(order, 1000, 2, 9)].concat();
        let file = result(&small(order), Edit::Append(more));
        let place = END as u64;
        assert_eq!(refusal(&file, Edit::Remove(place + 144)), (17, place + 72));
        assert_eq!(refusal(&file, Edit::Remove(place + 72)), (13, place + 72));
        let without = result(&file, Edit::Remove(place));
        assert_eq!(without, [&file[..END], &file[END + 72..]].concat());
    }
}

/// 3 at the place handed over, whatever it is.
#[test]
fn removals_where_no_tuple_starts() {
    for order in Order::BOTH {
        let file = result(&small(order), Edit::Index);
        let starts: Vec<u64> = tuples(&file).iter().map(|tuple| tuple.place).collect();
        let length = file.len() as u64;
        let far = [
            length + 1,
            length + 4,
            1 << 32,
            (1 << 32) + 208,
            u64::MAX - 3,
            u64::MAX,
        ];
        for place in (0..=length).chain(far) {
            if !starts.contains(&place) {
                assert_eq!(refusal(&file, Edit::Remove(place)), (3, place));
            }
        }
        // bytes in a text that would make a tuple start none
        let marker = marked(order, |bytes| {
            bytes.tuple(10110, 48, |text| {
                text.two(0);
                text.four(0);
                text.tuple(65516, 20, |_| {});
            });
        });
        let file = result(&file, Edit::Append(marker[4..].to_vec()));
        let inside = END as u64 + 12;
        assert!(matches!(
            second::walk::forward(&file, inside),
            second::walk::Step::Tuple { .. }
        ));
        assert_eq!(refusal(&file, Edit::Remove(inside)), (3, inside));
    }
}

/// The check's refusals of the file handed in come first, whatever is asked for; then those of
/// the place or of too many bytes, then those of the result, then room.
#[test]
fn order_of_refusals() {
    for order in Order::BOTH {
        let file = small(order);
        let broken = file[..END].to_vec();
        let many = vec![0; 16_777_217];
        let none: Edit = Edit::Remove(5);
        assert_eq!(refusal(&broken, Edit::Index), (4, END as u64));
        assert_eq!(refusal(&broken, Edit::Append(vec![1])), (4, END as u64));
        assert_eq!(
            refusal(&broken, Edit::Append(many.clone())),
            (4, END as u64)
        );
        assert_eq!(refusal(&broken, none.clone()), (4, END as u64));
        assert_eq!(refusal(&[], none.clone()), (2, 0));
        assert_eq!(refusal(&many, none.clone()), (1, 0));
        assert_eq!(refusal(&file, Edit::Append(many)), (1, 0));
        assert_eq!(remove(&file, 5, &mut []), Answer::refused(3, 5));
        assert_eq!(remove(&file, 4, &mut []), Answer::refused(7, 4));
        let orphan = ping(order, 2);
        let refused = Answer::refused(13, END as u64);
        assert_eq!(append(&file, &orphan, &mut []), refused);
        assert_eq!(index(&file, &mut []), Answer::refused(19, 0));
    }
}
