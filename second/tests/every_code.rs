//! Every code is really given by something: those from 1 to 31, but for 10, which
//! request c of 02 took away.

mod common;

use common::{lent, seed, tuples_found};
use second::gen::{big_limit, energy_case, file_case};
use second::pings::{read_samples, write_c32, write_u32, Ping, PingHeader};
use second::programs::normalise_tuple;
use second::{
    check, corrected, energy, normalise, parents, readings, salvage, Order, SoftwareChannel,
};
use std::collections::BTreeSet;

/// The codes that calls give for a file, at the places of its tuples too.
fn codes(file: &[u8]) -> Vec<u32> {
    let mut codes = vec![
        check(file).code,
        normalise(file, &mut lent(60)).code,
        normalise_tuple(file, &mut lent(60)).code,
    ];
    for tuple in tuples_found(file) {
        let alone = [&file[..4], tuple.bytes(file)].concat();
        codes.extend([
            normalise_tuple(&alone, &mut lent(60)).code,
            read_samples(file, tuple.place, &mut [0; 9], &mut [0; 9]).code,
            Ping::read(file, tuple.place).map_or_else(|refusal| refusal.code, |_| 0),
            energy(file, tuple.place).map_or_else(|refusal| refusal.code, |_| 0),
            readings(file, tuple.place, 0, &mut [], &mut []).code,
        ]);
    }
    codes.push(parents(file, 4).map_or_else(|refusal| refusal.code, |_| 0));
    codes.push(corrected(file, file, SoftwareChannel(0), 0).answer.code);
    codes.push(salvage(file, &mut [], &mut []).map_or_else(|refusal| refusal.code, |_| 0));
    codes
}

#[test]
fn every_code_is_seen() {
    let mut seen = BTreeSet::new();
    for index in 0..800 {
        for case in file_case(seed(), index) {
            seen.extend(codes(&case.bytes));
        }
    }
    for index in 0..24 {
        seen.extend(codes(&energy_case(seed(), index).bytes));
    }
    let header = PingHeader {
        time_fraction: 0,
        time_cpu_ansi_c_standard_time: 0,
        software_channel_identifier: SoftwareChannel(0),
        transmitter_mode: 0,
        ping_number: 0,
        detected_bottom_range: 0,
    };
    seen.insert(check(&big_limit(2).bytes).code);
    seen.insert(normalise(&big_limit(5).bytes, &mut []).code);
    for (numbers, values) in [
        (&[0][..], &[-1][..]),
        (&[0], &[0]),
        (&[], &[]),
        (&[3, 3], &[0, 0]),
        (&[3], &[]),
    ] {
        seen.insert(write_u32(&header, 0, numbers, values, Order::Lsb, &mut []).code);
        for length in [None, Some(1)] {
            let out = &mut [];
            seen.insert(write_c32(&header, 0, numbers, values, length, Order::Lsb, out).code);
        }
    }
    assert_eq!(seen, (0..=31).filter(|code| *code != 10).collect());
}
