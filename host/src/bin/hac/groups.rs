//! Deposits whose digests agree, compared byte for byte.

use crate::files::Entry;
use crate::progress::Progress;
use crate::spread::Spread;
use crate::verdict::Verdict;
use std::collections::BTreeMap;
use std::sync::Arc;

/// A deposit's bytes in normal form.
pub type Form = Vec<u8>;

/// What normal forms are made of.
pub struct Deposits {
    pub entries: Arc<Vec<Entry>>,
    /// The normal forms of those that can be read but once, by their places.
    pub held: BTreeMap<usize, Form>,
}

impl Deposits {
    /// A deposit's normal form, made once more.
    fn form(&self, at: usize) -> Result<Form, String> {
        if let Some(form) = self.held.get(&at) {
            return Ok(form.clone());
        }
        let made = self.entries[at].normal_form();
        made.map_err(|verdict| match verdict {
            Verdict::Unread(why) => why,
            _ => "changed while it was compared".into(),
        })
    }
}

/// What comparing has found, by places in the list of deposits.
#[derive(Default)]
pub struct Groups {
    /// Those of equal content, at least two of each, by the first of them.
    pub same: BTreeMap<usize, Vec<usize>>,
    /// Those that couldn't be compared, and why.
    pub gone: BTreeMap<usize, String>,
}

/// Two deposits that may be the same.
#[derive(Clone, Copy)]
struct Pair {
    first: usize,
    other: usize,
}

/// What comes of a pair.
enum Compared {
    Same,
    Differ,
    /// One of them couldn't be read again, and why.
    Gone(usize, String),
}

impl Groups {
    /// Sorts classes of deposits, each of them in order, by content. Where a class holds
    /// more than one content those that aren't the first one's are sorted once more.
    pub fn of(deposits: &Arc<Deposits>, mut classes: Vec<Vec<usize>>) -> Groups {
        let mut groups = Groups::default();
        loop {
            classes.retain(|class| class.len() > 1);
            if classes.is_empty() {
                return groups;
            }
            classes = groups.take(deposits, &classes);
        }
    }

    /// Compares all of each class with its first, and gives back what is left of it.
    fn take(&mut self, deposits: &Arc<Deposits>, classes: &[Vec<usize>]) -> Vec<Vec<usize>> {
        let pairs: Arc<Vec<Pair>> =
            Arc::new(classes.iter().flat_map(|class| pairs(class)).collect());
        let mut left: BTreeMap<usize, Vec<usize>> = BTreeMap::new();
        for (Pair { first, other }, compared) in pairs.iter().zip(compare_all(deposits, &pairs)) {
            let mut stays = || left.entry(*first).or_default().push(*other);
            match compared {
                Compared::Same => {
                    let group = self.same.entry(*first).or_insert_with(|| vec![*first]);
                    group.push(*other);
                }
                Compared::Differ => stays(),
                Compared::Gone(at, why) => {
                    if at == *first {
                        stays();
                    }
                    self.gone.insert(at, why);
                }
            }
        }
        left.into_values().collect()
    }
}

/// The first of a class with each other.
fn pairs(class: &[usize]) -> impl Iterator<Item = Pair> + '_ {
    let (first, others) = class.split_first().expect("no class is empty");
    others.iter().map(|other| Pair {
        first: *first,
        other: *other,
    })
}

/// Compares all pairs on all cores, in their order.
fn compare_all(deposits: &Arc<Deposits>, pairs: &Arc<Vec<Pair>>) -> Vec<Compared> {
    let (deposits, shared) = (deposits.clone(), pairs.clone());
    let mut spread = Spread::over(pairs.len(), move |nth, last| {
        compare(&deposits, shared[nth], last)
    });
    let mut progress = Progress::over(pairs.len(), "compared");
    let mut compared = Vec::new();
    loop {
        progress.show(spread.done());
        match spread.due() {
            Some(due) => compared.extend(due),
            None => return compared,
        }
    }
}

/// Compares a pair. The form of its first is held for the next pair, which mostly has the
/// same first: no worker holds more than two forms.
fn compare(deposits: &Deposits, pair: Pair, held: &mut Option<(usize, Form)>) -> Compared {
    let first = match held.take().filter(|(at, _)| *at == pair.first) {
        Some((_, form)) => Ok(form),
        None => deposits.form(pair.first),
    };
    let first = match first {
        Ok(form) => form,
        Err(why) => return Compared::Gone(pair.first, why),
    };
    let compared = match deposits.form(pair.other) {
        Ok(other) if other == first => Compared::Same,
        Ok(_) => Compared::Differ,
        Err(why) => Compared::Gone(pair.other, why),
    };
    *held = Some((pair.first, first));
    compared
}

#[cfg(test)]
mod tests {
    use super::*;
    use crate::input::Input;
    use std::path::PathBuf;

    /// Deposits of which the forms are held, and others that aren't there.
    fn deposits(forms: &[Option<&str>]) -> Arc<Deposits> {
        let entries = forms.iter().map(|_| Input::Path(PathBuf::new()).into());
        let held = forms.iter().enumerate();
        let held = held.filter_map(|(at, form)| Some((at, form.as_ref()?.as_bytes().to_vec())));
        Arc::new(Deposits {
            entries: Arc::new(entries.collect()),
            held: held.collect(),
        })
    }

    /// Digests may agree by chance: the bytes decide.
    #[test]
    fn one_class_of_many_contents() {
        let forms = ["a", "b", "a", "c", "b", "a", "d", "b"].map(Some);
        let class = (0..forms.len()).collect();
        let groups = Groups::of(&deposits(&forms), vec![class]);
        let same: Vec<_> = groups.same.into_values().collect();
        assert_eq!(same, [vec![0, 2, 5], vec![1, 4, 7]]);
        assert!(groups.gone.is_empty());
    }

    /// What can't be read again is told apart, and keeps the others from nothing.
    #[test]
    fn gone() {
        for (forms, same, gone) in [
            ([None, Some("a"), Some("a")], vec![vec![1, 2]], vec![0]),
            ([Some("a"), None, Some("a")], vec![vec![0, 2]], vec![1]),
            ([Some("a"), Some("b"), None], vec![], vec![2]),
            ([None, None, Some("a")], vec![], vec![0, 1]),
        ] {
            let groups = Groups::of(&deposits(&forms), vec![vec![0, 1, 2], vec![0]]);
            assert_eq!(groups.same.into_values().collect::<Vec<_>>(), same);
            assert_eq!(groups.gone.into_keys().collect::<Vec<_>>(), gone);
        }
    }
}
