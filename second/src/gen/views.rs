//! Files of echoes for request j of 02, and the windows that a viewer may ask for.

use super::corrections::bytes_of;
use super::draft::{render, Body, Draft, Style};
use super::echoes::{echo_drafts, Recipe, MIXED};
use super::Rng;

/// A window to ask for.
#[derive(Clone, Copy, PartialEq, Eq, Debug)]
pub struct View {
    /// Where the ping is looked for.
    pub place: u64,
    /// The first sample number.
    pub first: u64,
    /// How many cases and how many doubles are lent.
    pub lent: [usize; 2],
}

/// A file, sound or not, and the windows to ask for.
#[derive(Clone, Debug)]
pub struct ViewerCase {
    /// Says what the file is for.
    pub name: String,
    pub bytes: Vec<u8>,
    pub views: Vec<View>,
}

/// Values of any size, in volts or in decibels.
const WILD: Recipe = Recipe {
    name: "wild",
    sv: 30,
    wild: true,
    ..MIXED
};

#[rustfmt::skip]
const RECIPES: [Recipe; 8] = [
    WILD,
    MIXED,
    Recipe { name: "far", far: true, ..WILD },
    Recipe { name: "silent", silent: 80, ..WILD },
    Recipe { name: "angles", angles: 60, ..WILD },
    Recipe { name: "other-types", sv: 0, ..WILD },
    Recipe { name: "full", full: true, ..MIXED },
    Recipe { name: "refused", refused: true, ..WILD },
];

/// One past the last sample number, and the longest window of a whole ping.
const NUMBERS: u64 = 1 << 32;
const WHOLE: u64 = 3000;

/// Pings asked for in one file, and windows of each.
const PINGS: usize = 8;
const WINDOWS: usize = 5;

/// Sample numbers about which the readings of a ping change.
fn edges(draft: &Draft) -> Vec<u64> {
    let numbers: Vec<u32> = match &draft.body {
        Body::Ping {
            samples, length, ..
        } => {
            let numbers = samples.iter().map(|sample| sample.0);
            numbers.chain(*length).collect()
        }
        Body::Listed { samples, .. } => samples.iter().map(|sample| sample.0).collect(),
        _ => Vec::new(),
    };
    let ends = numbers.first().into_iter().chain(numbers.last());
    let ends = ends.map(|number| u64::from(*number));
    ends.chain([0, 65_535, NUMBERS - 1]).collect()
}

/// A window about an edge, or past all numbers; the slices often differ in length.
fn any_view(rng: &mut Rng, place: u64, edges: &[u64]) -> View {
    let before = rng.pick(edges).saturating_sub(rng.below(6));
    let first = match rng.below(20) {
        0 => u64::MAX - rng.below(3),
        1 => NUMBERS + rng.below(3),
        _ => before + rng.below(3),
    };
    let entries = rng.pick(&[0, 1, 2, 5, 9, 40, 700]);
    let mut lent = [entries, entries + rng.pick(&[0, 0, 1, 30])];
    if rng.chance(50) {
        lent.reverse();
    }
    View { place, first, lent }
}

/// Some windows of a ping, and one of all its numbers where these aren't many.
fn views_of(rng: &mut Rng, place: u64, draft: &Draft) -> Vec<View> {
    let edges = edges(draft);
    let mut views: Vec<View> = (0..WINDOWS).map(|_| any_view(rng, place, &edges)).collect();
    let small = edges.iter().copied().filter(|edge| *edge < WHOLE);
    let whole = small.max().unwrap_or(0) as usize + 3;
    views.push(View {
        place,
        first: 0,
        lent: [whole, whole],
    });
    views
}

/// Windows at places where no listed ping starts: of other tuples, within a tuple, in no
/// file.
fn views_beside(rng: &mut Rng, places: &[u64]) -> Vec<View> {
    let any = rng.pick(places);
    let beside = [0, 3, 4, any + 4, any + 1, NUMBERS, u64::MAX];
    let views = beside.map(|place| any_view(rng, place, &[0]));
    views.to_vec()
}

/// The file's bytes, and where its drafts start as long as it isn't refused.
fn file_of(rng: &mut Rng, drafts: &[Draft], style: &Style, recipe: &Recipe) -> (Vec<u8>, Vec<u64>) {
    let rendered = render(drafts, style, rng);
    let places = rendered.places.iter().map(|place| *place as u64).collect();
    if recipe.refused {
        let bytes = bytes_of(rng, drafts.to_vec(), style, true);
        return (bytes, places);
    }
    (rendered.bytes, places)
}

/// Its own stream, so that these files have nothing to do with the file cases of a seed.
const STREAM: u64 = 0x71E_3E4;

/// The file of a number, and its windows; what files are for comes in turn.
pub fn viewer_case(seed: u64, number: u64) -> ViewerCase {
    let mut rng = Rng::of_case(seed ^ STREAM, number);
    let recipe = &RECIPES[(number % RECIPES.len() as u64) as usize];
    let style = Style::any(&mut rng);
    let drafts = echo_drafts(&mut rng, recipe);
    let (bytes, places) = file_of(&mut rng, &drafts, &style, recipe);
    let mut views = views_beside(&mut rng, &places);
    let tuples = places.iter().zip(&drafts);
    let pings = tuples.filter(|(_, draft)| draft.is_ping()).take(PINGS);
    for (place, draft) in pings {
        views.extend(views_of(&mut rng, *place, draft));
    }
    ViewerCase {
        name: format!("views-{}-{}", recipe.name, style.name()),
        bytes,
        views,
    }
}
