//! What a deposit holds, as a page and as an object.

use crate::contents::{Channel, Contents, Index, Span};
use crate::input::Input;
use crate::json::Object;
use crate::moment::Moment;
use crate::shown::shown;
use crate::units::{ACOUSTIC_FREQUENCY, POSITION_DEGREES, SAMPLING_RATE};
use crate::verdict::Verdict;
use hac::{types, Order};

/// The tuples that are only counted: their name, and that of their number.
const COUNTED: [(&str, &str); 9] = [
    ("position", "positions"),
    ("navigation", "navigations"),
    ("attitude", "attitudes"),
    ("threshold", "thresholds"),
    ("event marker", "event markers"),
    ("start of run", "starts of run"),
    ("end of run", "ends of run"),
    ("index", "index tuples"),
    ("unlisted", "unlisted tuples"),
];

fn order_words(order: Order) -> &'static str {
    match order {
        Order::Lsb => "least significant byte first",
        Order::Msb => "most significant byte first",
    }
}

fn order_name(order: Order) -> &'static str {
    match order {
        Order::Lsb => "LSB",
        Order::Msb => "MSB",
    }
}

/// A line of the page, its head at the left.
fn line(head: &str, rest: &str) -> String {
    format!("  {head:<11}  {rest}")
}

pub fn lines(input: &Input, verdict: &Verdict, contents: &Contents) -> Vec<String> {
    let mut lines = vec![
        format!("{}: {verdict}", shown(input.name())),
        line(
            "length",
            &format!("{} bytes, {}", contents.bytes, order_words(contents.order)),
        ),
    ];
    if let Some((first, last)) = contents.time.0 {
        let times = format!("{first} to {last}, by the recorder's clock");
        lines.push(line("time", &times));
    }
    lines.extend(degrees("latitude", &contents.latitude));
    lines.extend(degrees("longitude", &contents.longitude));
    for (document, maker) in &contents.sounders {
        lines.push(line("echosounder", &format!("{document}, {maker}")));
    }
    for (identifier, channel) in &contents.channels {
        lines.extend(channel_lines(*identifier, channel));
    }
    lines.extend(index_lines(contents));
    let counted = COUNTED.map(|(name, number)| (contents.count(name), number));
    let counted = counted.map(|(count, number)| format!("{number} {count}"));
    lines.push(line("tuples", &counted.join(", ")));
    lines
}

/// How far positions reach in one direction.
fn degrees(head: &str, span: &Span<i32>) -> Option<String> {
    let (least, most) = span.0?;
    let [least, most] = [least, most].map(|number| POSITION_DEGREES.value(number.into()));
    let unit = POSITION_DEGREES.name;
    Some(line(head, &format!("{least} to {most} {unit}")))
}

/// A channel, and a line for each kind of its pings.
fn channel_lines(identifier: u16, channel: &Channel) -> Vec<String> {
    let kind = channel.type_of_data_sample;
    let samples = match types::data_sample(channel.maker, kind) {
        Some(words) => words.into(),
        None => format!("type of data sample {kind}, which TR doesn't list"),
    };
    let told = format!(
        "{identifier}, echosounder {}, {} {}, {} {}, {samples}",
        channel.sounder,
        channel.acoustic_frequency,
        ACOUSTIC_FREQUENCY.name,
        channel.sampling_rate,
        SAMPLING_RATE.name
    );
    let pings = channel.pings.iter().map(|(kind, tally)| {
        let name = types::name(*kind);
        let (pings, samples) = (tally.pings, tally.samples);
        line("", &format!("{name}: pings {pings}, samples {samples}"))
    });
    [line("channel", &told)].into_iter().chain(pings).collect()
}

/// Whether a list of types is what it has to be.
fn truth(contents: &Contents, index: &Index) -> &'static str {
    match contents.is_true(index) {
        true => "true",
        false => "stale",
    }
}

/// Each index; of a file that has none this alone.
fn index_lines(contents: &Contents) -> Vec<String> {
    if contents.indexes.is_empty() {
        return vec![line("index", "none")];
    }
    let indexes = contents.indexes.iter().map(|index| {
        let types = index.types.iter();
        let types = types.map(|kind| format!("{kind} {}", types::name(*kind)));
        let types = types.collect::<Vec<_>>().join(", ");
        let types = if types.is_empty() { "no types" } else { &types };
        let truth = truth(contents, index);
        line("index", &format!("at {}, {truth}: {types}", index.place))
    });
    indexes.collect()
}

pub fn object(input: &Input, verdict: &Verdict, contents: &Contents) -> Object {
    let object = verdict
        .object(input)
        .number("length", contents.bytes)
        .text("byte_order", order_name(contents.order));
    let object = with_times(object, &contents.time);
    let object = with_degrees(object, "latitude", &contents.latitude);
    let object = with_degrees(object, "longitude", &contents.longitude);
    let sounders = contents.sounders.iter().map(|(document, maker)| {
        Object::default()
            .number("sounder", *document)
            .text("maker", maker.name())
    });
    let channels = contents.channels.iter();
    let channels = channels.map(|(identifier, channel)| channel_object(*identifier, channel));
    let object = object.list("sounders", sounders);
    let object = object.list("channels", channels);
    let indexes = contents.indexes.iter();
    let object = object.list(
        "indexes",
        indexes.map(|index| index_object(contents, index)),
    );
    COUNTED.iter().fold(object, |object, (name, number)| {
        object.number(&number.replace(' ', "_"), contents.count(name))
    })
}

/// Times as seconds since 1970 began, and as a calendar has them.
fn with_times(object: Object, time: &Span<Moment>) -> Object {
    let (first, last) = time.0.unzip();
    object
        .number_or_null("first_time", first.map(Moment::seconds))
        .text_or_null(
            "first_date",
            first.map(|first| first.to_string()).as_deref(),
        )
        .number_or_null("last_time", last.map(Moment::seconds))
        .text_or_null("last_date", last.map(|last| last.to_string()).as_deref())
}

fn with_degrees(object: Object, direction: &str, span: &Span<i32>) -> Object {
    let value = |number: i32| POSITION_DEGREES.value(number.into());
    let (least, most) = span.0.unzip();
    object
        .number_or_null(&format!("least_{direction}"), least.map(value))
        .number_or_null(&format!("most_{direction}"), most.map(value))
}

fn index_object(contents: &Contents, index: &Index) -> Object {
    let types = index.types.iter().map(|kind| {
        Object::default()
            .number("type", *kind)
            .text("name", types::name(*kind))
    });
    Object::default()
        .number("place", index.place)
        .text("list", truth(contents, index))
        .list("types", types)
}

fn channel_object(identifier: u16, channel: &Channel) -> Object {
    let kind = channel.type_of_data_sample;
    let pings = channel.pings.iter().map(|(kind, tally)| {
        Object::default()
            .number("type", *kind)
            .text("name", types::name(*kind))
            .number("pings", tally.pings)
            .number("samples", tally.samples)
    });
    Object::default()
        .number("channel", identifier)
        .number("sounder", channel.sounder)
        .text("maker", channel.maker.name())
        .number("acoustic_frequency", channel.acoustic_frequency)
        .number("sampling_rate", channel.sampling_rate)
        .number("type_of_data_sample", kind)
        .text_or_null("data_sample", types::data_sample(channel.maker, kind))
        .list("pings", pings)
}
