// The hand-written part of the program that bench/native builds: what Rattle's std, `rand_core` and `rand_pcg` have otherwise than Rust's
// std, and `main`. The script puts a line `mod NAME;` behind it for each translated crate.
//
// `shim::std` stands for `std` in the translated sources: it has Rust's, but for the modules below. `shim::prelude` is used in each of
// their files. A `Vec` and a `String` are Rust's with those methods over them that return a `Result`; nothing here ever runs out of
// memory, which ends the program. Nothing of it is proved.

macro_rules! vec_in {
    (in $alloc:expr; $entry:expr; $count:expr) => {
        Ok::<_, $crate::shim::AllocError>($crate::shim::Vec(::std::vec![$entry; $count]))
    };
    (in $alloc:expr; $($entry:expr),* $(,)?) => {
        Ok::<_, $crate::shim::AllocError>($crate::shim::Vec(::std::vec![$($entry),*]))
    };
}

macro_rules! format_in {
    (in $alloc:expr; $($format:tt)*) => {
        Ok::<_, $crate::shim::AllocError>($crate::shim::String(::std::format!($($format)*)))
    };
}

pub mod shim {
    use ::std::fmt;
    use ::std::ops::{Deref, DerefMut};

    /// `std`, as the translated sources see it.
    pub mod std {
        pub use ::std::*;

        pub mod alloc {
            pub use crate::shim::{AllocError, AllocFailed, Global};
        }

        pub mod collections {
            pub use crate::shim::BTreeSet;
        }

        pub mod marker {
            pub use crate::shim::ledger::{Brand, Model};
        }

        pub mod sync {
            pub use crate::shim::ledger;
        }

        pub mod time {
            pub use crate::shim::Instant;
        }
    }

    /// What each translated file uses.
    pub mod prelude {
        pub use super::{Drop, HostRuntime, SliceIn, String, Vec, new_box, take_box};
    }

    /// The allocator, which is only passed around.
    #[derive(Clone, Copy, Debug)]
    pub struct Global;

    #[derive(Clone, Copy, Debug, PartialEq, Eq)]
    pub struct AllocError;

    #[derive(Clone, Copy, Debug, PartialEq, Eq)]
    pub struct AllocFailed<T> {
        pub value: T,
    }

    impl<T> From<AllocFailed<T>> for AllocError {
        fn from(_: AllocFailed<T>) -> AllocError {
            AllocError
        }
    }

    impl From<fmt::Error> for AllocError {
        fn from(_: fmt::Error) -> AllocError {
            AllocError
        }
    }

    impl From<AllocError> for ::std::io::Error {
        fn from(_: AllocError) -> ::std::io::Error {
            ::std::io::ErrorKind::OutOfMemory.into()
        }
    }

    /// The runtime, of which only the clock is read.
    #[derive(Clone, Copy, Debug)]
    pub struct HostRuntime;

    #[derive(Clone, Copy, Debug)]
    pub struct Instant(::std::time::Instant);

    impl Instant {
        pub fn now(_rt: &HostRuntime) -> ::std::io::Result<Instant> {
            Ok(Instant(::std::time::Instant::now()))
        }

        pub fn saturating_duration_since(&self, earlier: Instant) -> ::std::time::Duration {
            self.0.saturating_duration_since(earlier.0)
        }
    }

    /// Any value may be let go.
    pub trait Drop {}

    impl<T: ?Sized> Drop for T {}

    pub fn new_box<T>(_alloc: Global, value: T) -> Result<Box<T>, AllocError> {
        Ok(Box::new(value))
    }

    pub fn take_box<T>(value: Box<T>) -> T {
        *value
    }

    #[derive(Debug, PartialEq, Eq, PartialOrd, Ord)]
    pub struct Vec<T>(pub ::std::vec::Vec<T>);

    impl<T> Vec<T> {
        #[inline]
        pub fn new(_alloc: Global) -> Vec<T> {
            Vec(::std::vec::Vec::new())
        }

        #[inline]
        pub fn with_capacity(_alloc: Global, count: usize) -> Result<Vec<T>, AllocError> {
            Ok(Vec(::std::vec::Vec::with_capacity(count)))
        }

        #[inline]
        pub fn push(&mut self, value: T) -> Result<(), AllocError> {
            self.0.push(value);
            Ok(())
        }

        #[inline]
        pub fn insert(&mut self, place: usize, value: T) -> Result<(), AllocError> {
            self.0.insert(place, value);
            Ok(())
        }

        #[inline]
        pub fn reserve(&mut self, more: usize) -> Result<(), AllocError> {
            self.0.reserve(more);
            Ok(())
        }

        #[inline]
        pub fn extend<I: IntoIterator<Item = T>>(&mut self, values: I) -> Result<(), AllocError> {
            self.0.extend(values);
            Ok(())
        }
    }

    impl<T: Clone> Vec<T> {
        #[inline]
        pub fn resize(&mut self, count: usize, value: T) -> Result<(), AllocError> {
            self.0.resize(count, value);
            Ok(())
        }

        #[inline]
        pub fn extend_from_slice(&mut self, values: &[T]) -> Result<(), AllocError> {
            self.0.extend_from_slice(values);
            Ok(())
        }
    }

    impl<T: Ord> Vec<T> {
        #[inline]
        pub fn sort(&mut self) -> Result<(), AllocError> {
            self.0.sort();
            Ok(())
        }
    }

    impl<T> Deref for Vec<T> {
        type Target = ::std::vec::Vec<T>;

        #[inline]
        fn deref(&self) -> &::std::vec::Vec<T> {
            &self.0
        }
    }

    impl<T> DerefMut for Vec<T> {
        #[inline]
        fn deref_mut(&mut self) -> &mut ::std::vec::Vec<T> {
            &mut self.0
        }
    }

    impl<T> IntoIterator for Vec<T> {
        type Item = T;
        type IntoIter = ::std::vec::IntoIter<T>;

        #[inline]
        fn into_iter(self) -> Self::IntoIter {
            self.0.into_iter()
        }
    }

    impl<'a, T> IntoIterator for &'a Vec<T> {
        type Item = &'a T;
        type IntoIter = ::std::slice::Iter<'a, T>;

        #[inline]
        fn into_iter(self) -> Self::IntoIter {
            self.0.iter()
        }
    }

    impl<'a, T> IntoIterator for &'a mut Vec<T> {
        type Item = &'a mut T;
        type IntoIter = ::std::slice::IterMut<'a, T>;

        #[inline]
        fn into_iter(self) -> Self::IntoIter {
            self.0.iter_mut()
        }
    }

    /// `to_vec` of a slice, which is translated to this name.
    pub trait SliceIn<T> {
        fn to_vec_in(&self, alloc: Global) -> Result<Vec<T>, AllocError>;
    }

    impl<T: Clone> SliceIn<T> for [T] {
        #[inline]
        fn to_vec_in(&self, _alloc: Global) -> Result<Vec<T>, AllocError> {
            Ok(Vec(<[T]>::to_vec(self)))
        }
    }

    #[derive(Debug, PartialEq, Eq, PartialOrd, Ord)]
    pub struct String(pub ::std::string::String);

    impl String {
        pub fn new(_alloc: Global) -> String {
            String(::std::string::String::new())
        }

        pub fn from_str(_alloc: Global, text: &str) -> Result<String, AllocError> {
            Ok(String(text.to_owned()))
        }

        pub fn clone(&self) -> Result<String, AllocError> {
            Ok(String(self.0.clone()))
        }

        pub fn push(&mut self, letter: char) -> Result<(), AllocError> {
            self.0.push(letter);
            Ok(())
        }

        pub fn push_str(&mut self, text: &str) -> Result<(), AllocError> {
            self.0.push_str(text);
            Ok(())
        }

        pub fn into_bytes(self) -> Vec<u8> {
            Vec(self.0.into_bytes())
        }

        pub fn write_fmt(&mut self, words: fmt::Arguments<'_>) -> Result<(), AllocError> {
            fmt::Write::write_fmt(&mut self.0, words)?;
            Ok(())
        }
    }

    impl Deref for String {
        type Target = ::std::string::String;

        fn deref(&self) -> &::std::string::String {
            &self.0
        }
    }

    impl fmt::Display for String {
        fn fmt(&self, f: &mut fmt::Formatter<'_>) -> fmt::Result {
            f.write_str(&self.0)
        }
    }

    #[derive(Debug)]
    pub struct BTreeSet<T>(::std::collections::BTreeSet<T>);

    impl<T: Ord> BTreeSet<T> {
        pub fn new(_alloc: Global) -> BTreeSet<T> {
            BTreeSet(::std::collections::BTreeSet::new())
        }

        pub fn insert(&mut self, value: T) -> Result<bool, AllocError> {
            Ok(self.0.insert(value))
        }
    }

    impl<T> Deref for BTreeSet<T> {
        type Target = ::std::collections::BTreeSet<T>;

        fn deref(&self) -> &::std::collections::BTreeSet<T> {
            &self.0
        }
    }

    impl<T> DerefMut for BTreeSet<T> {
        fn deref_mut(&mut self) -> &mut ::std::collections::BTreeSet<T> {
            &mut self.0
        }
    }

    /// What counts in proofs alone.
    pub mod ledger {
        use ::std::marker::PhantomData;

        pub trait Model {}

        pub trait Ledger {}

        pub struct Brand;

        impl Ledger for Brand {}

        pub struct Blank;

        pub struct Book<L>(PhantomData<L>);

        pub struct Share<L>(PhantomData<L>);

        impl Blank {
            pub fn new(_parts: u64) -> Blank {
                Blank
            }

            pub fn open<L: Ledger>(self) -> (Book<L>, Share<L>) {
                (Book(PhantomData), Share(PhantomData))
            }
        }

        impl<L: Ledger> Book<L> {
            #[inline]
            pub fn add(&mut self, _share: &mut Share<L>, _more: u64) {}
        }
    }
}

pub mod rand_core {
    pub mod utils {
        pub trait NextWord<T> {
            fn next_word(&mut self) -> T;
        }
    }
}

pub mod rand_pcg {
    use crate::rand_core::utils::NextWord;

    const MULTIPLIER: u64 = 6364136223846793005;

    /// PCG32: XSH RR 64/32 over a linear congruence.
    #[derive(Clone, Debug, PartialEq, Eq)]
    pub struct Lcg64Xsh32 {
        state: u64,
        increment: u64,
    }

    impl Lcg64Xsh32 {
        pub fn new(state: u64, stream: u64) -> Lcg64Xsh32 {
            let increment = (stream << 1) | 1;
            let mut words = Lcg64Xsh32 {
                state: state.wrapping_add(increment),
                increment,
            };
            words.step();
            words
        }

        fn step(&mut self) {
            self.state = self.state.wrapping_mul(MULTIPLIER).wrapping_add(self.increment);
        }
    }

    impl NextWord<u32> for Lcg64Xsh32 {
        fn next_word(&mut self) -> u32 {
            let state = self.state;
            self.step();
            let turned = (state >> 59) as u32;
            ((((state >> 18) ^ state) >> 27) as u32).rotate_right(turned)
        }
    }
}

use branching::{Found, Plugins, Wanted, search_all};
use certificate::Claim;
use lot_model::{Draft, DraftItem, DraftNeed, DraftRefusal, DraftResource, DraftUse, Instance};
use search_plugins::Watch;
use shim::{Global, HostRuntime, String as Text, Vec as List};
use shops::Family;
use std::str::SplitWhitespace;
use work_clock::Deadline;

/// The words of a plain model: numbers and names in the order in which bench/native writes them. `-` stands for what isn't there.
struct Words<'a>(SplitWhitespace<'a>);

impl Words<'_> {
    fn word(&mut self) -> &str {
        self.0.next().expect("a plain model ends early")
    }

    fn name(&mut self) -> Text {
        Text(self.word().to_owned())
    }

    fn number(&mut self) -> i64 {
        self.word().parse().expect("a plain model has no number where one is due")
    }

    fn maybe(&mut self) -> Option<i64> {
        match self.word() {
            "-" => None,
            word => Some(word.parse().expect("a plain model has no number where one is due")),
        }
    }

    /// How many there are, and then each of them.
    fn list<T>(&mut self, mut entry: impl FnMut(&mut Self) -> T) -> List<T> {
        let count = self.number();
        List((0..count).map(|_| entry(self)).collect())
    }

    fn numbers(&mut self) -> List<i64> {
        self.list(|words| words.number())
    }

    fn resource(&mut self) -> DraftResource {
        DraftResource {
            name: self.name(),
            capacity: self.numbers(),
        }
    }

    fn need(&mut self) -> DraftNeed {
        DraftNeed {
            item: self.name(),
            quantity: self.number(),
        }
    }

    fn usage(&mut self) -> DraftUse {
        DraftUse {
            resource: self.name(),
            unit: self.number(),
            setup: self.number(),
        }
    }

    fn item(&mut self) -> DraftItem {
        DraftItem {
            name: self.name(),
            demand: self.numbers(),
            unit_cost: self.numbers(),
            setup_cost: self.numbers(),
            hold_cost: self.numbers(),
            backlog_cost: Some(self.numbers()).filter(|list| !list.is_empty()),
            opening: self.number(),
            end_min: self.number(),
            end_max: self.maybe(),
            lead: self.number(),
            min_lot: self.number(),
            max_lot: self.maybe(),
            needs: self.list(Words::need),
            uses: self.list(Words::usage),
        }
    }

    fn draft(&mut self) -> Draft {
        Draft {
            periods: self.number(),
            resources: self.list(Words::resource),
            items: self.list(Words::item),
        }
    }
}

/// The draft of a word: `FAMILY:ITEMS:PERIODS:SEED`, or `=` and the name of a file with a plain model.
fn draft_of(word: &str) -> Draft {
    if let Some(file) = word.strip_prefix('=') {
        let text = std::fs::read_to_string(file).expect("a plain model can't be read");
        return Words(text.split_whitespace()).draft();
    }
    let parts: Vec<&str> = word.split(':').collect();
    let family = [Family::Chains, Family::Setups, Family::Levels, Family::Lags, Family::Lots]
        .into_iter()
        .find(|family| shops::letter(*family) == parts[0])
        .expect("no family has this letter");
    let number = |place: usize| parts[place].parse::<u64>().expect("a word has no number where one is due");
    shops::draft_of(Global, family, number(3), number(1) as u32, number(2) as u32).expect("memory")
}

/// A list of numbers as TOML.
fn numbers(list: &[i64]) -> std::string::String {
    std::format!("{list:?}")
}

/// A draft as a model file of version 2.
fn model_of(draft: &Draft) -> std::string::String {
    use std::fmt::Write;
    let mut text = std::format!("version = 2\nperiods = {}\n", draft.periods);
    for it in draft.resources.iter() {
        let _ = writeln!(text, "\n[[resource]]\nname = \"{}\"\ncapacity = {}", it.name.as_str(), numbers(&it.capacity));
    }
    for it in draft.items.iter() {
        let _ = writeln!(text, "\n[[item]]\nname = \"{}\"\ndemand = {}", it.name.as_str(), numbers(&it.demand));
        let _ = writeln!(text, "unit_cost = {}\nsetup_cost = {}\nhold_cost = {}", numbers(&it.unit_cost), numbers(&it.setup_cost), numbers(&it.hold_cost));
        if let Some(costs) = &it.backlog_cost {
            let _ = writeln!(text, "backlog_cost = {}", numbers(costs));
        }
        let _ = writeln!(text, "opening = {}\nend_min = {}\nlead = {}\nmin_lot = {}", it.opening, it.end_min, it.lead, it.min_lot);
        for (key, most) in [("end_max", it.end_max), ("max_lot", it.max_lot)] {
            if let Some(most) = most {
                let _ = writeln!(text, "{key} = {most}");
            }
        }
        let needs: std::vec::Vec<_> = it.needs.iter().map(|need| std::format!("{{ item = \"{}\", quantity = {} }}", need.item.as_str(), need.quantity)).collect();
        let uses: std::vec::Vec<_> = it.uses.iter().map(|it| std::format!("{{ resource = \"{}\", unit = {}, setup = {} }}", it.resource.as_str(), it.unit, it.setup)).collect();
        let _ = writeln!(text, "needs = [{}]\nuses = [{}]", needs.join(", "), uses.join(", "));
    }
    text
}

/// Seconds of processor time so far.
fn seconds() -> f64 {
    #[repr(C)]
    struct Time {
        seconds: i64,
        nanoseconds: i64,
    }
    unsafe extern "C" {
        safe fn clock_gettime(clock: i32, time: &mut Time) -> i32;
    }
    // CLOCK_PROCESS_CPUTIME_ID of Linux.
    let mut time = Time {
        seconds: 0,
        nanoseconds: 0,
    };
    clock_gettime(2, &mut time);
    time.seconds as f64 + time.nanoseconds as f64 / 1e9
}

/// What is claimed and what the plan costs, with their distance in percent of that cost, rounded down as by `lotplan`.
fn amounts(found: &Found, cost: Option<u128>) -> String {
    let bound = match found.certificate.claim {
        Claim::Infeasible => return "infeasible".to_owned(),
        Claim::Optimal(amount) | Claim::Bound(amount) => amount,
    };
    match cost {
        Some(cost) => {
            let gap = cost.saturating_sub(bound) * 10_000 / cost.max(1);
            format!("bound {bound}, plan {cost}, gap {}.{:02} percent", gap / 100, gap % 100)
        }
        None => format!("bound {bound}, no plan"),
    }
}

/// Ends a search when a time is over.
struct Until(Deadline);

impl Watch for Until {
    fn node(&mut self, _depth: usize, _says: Option<u128>, _best: Option<u128>) {}

    fn pass(&mut self, _bound: Option<u128>, _best: Option<u128>) {}

    fn stops(&mut self) -> bool {
        self.0.is_past()
    }
}

/// Searches a model, for so many seconds at most where they aren't 0, checks the certificate, and prints a line.
fn try_one(name: &str, word: &str, nodes: u64, seconds_at_most: u32, keep: Option<&str>) {
    let draft = draft_of(word);
    if let Some(folder) = keep.filter(|_| !word.starts_with('=')) {
        std::fs::write(std::format!("{folder}/{name}.toml"), model_of(&draft)).expect("a model can't be written");
    }
    let instance = match Instance::from_draft(Global, draft) {
        Ok(instance) => instance,
        Err(DraftRefusal::Refused { fault, .. }) => return println!("{name}: refused model {fault}"),
        Err(DraftRefusal::Memory(_)) => return println!("{name}: out of memory"),
    };
    let until = match seconds_at_most {
        0 => Deadline::none(),
        some => Deadline::after(&HostRuntime, some),
    };
    let plugins = Plugins {
        proposer: &price_plugin::Prices { until },
        heuristic: &heur_plugin::Plans { until },
    };
    let start = seconds();
    let found = search_all(Global, &plugins, Until(until), &instance, Wanted::with_budget(nodes)).expect("memory");
    let searched = seconds();
    let cost = found.plan.as_ref().map(|plan| plan_rules::judge(&instance, plan));
    let text = certificate::write_certificate(Global, &found.certificate).expect("memory");
    let before = seconds();
    let said = match cert_checker::check(Global, &instance, &found.certificate, found.plan.as_ref()) {
        Ok(_) => format!("accepted in {:.2} s", seconds() - before),
        Err(fault) => format!("REFUSED: {fault:?}"),
    };
    let cost = match cost {
        Some(Err(rule)) => return println!("{name}: THE PLAN BREAKS A RULE: {rule:?}"),
        Some(Ok(cost)) => Some(cost),
        None => None,
    };
    println!(
        "{name}: {} nodes, {}, found in {:.2} s, {} bytes, {said}",
        found.nodes,
        amounts(&found, cost),
        searched - start,
        text.len(),
    );
    if let Some(folder) = keep {
        std::fs::write(format!("{folder}/{name}.cert"), text.as_slice()).expect("a certificate can't be written");
    }
}

/// The words are the most nodes, the most seconds or 0, the folder of certificates or `-`, and for each model its name and its word.
fn main() {
    let words: Vec<String> = std::env::args().skip(1).collect();
    let nodes = words[0].parse().expect("the nodes are no number");
    let seconds_at_most = words[1].parse().expect("the seconds are no number");
    let keep = Some(words[2].as_str()).filter(|folder| *folder != "-");
    for model in words[3..].chunks(2) {
        try_one(&model[0], &model[1], nodes, seconds_at_most, keep);
    }
}
