//! What the judge says of a history, as values. They are made of the library's JSON, and the order of the report.
use crate::json::Json;

/// How many there are of each. Only completed views are counted.
#[derive(Clone, Copy, Debug, Default, PartialEq, Eq)]
pub struct Counts {
    pub events: u32,
    pub calls: u32,
    pub pending: u32,
    pub views: u32,
}

/// An update of a component, or what a view shows of it. The first update of a component has number 1.
#[derive(Clone, Copy, Debug, PartialEq, Eq)]
pub struct Entry {
    pub component: u8,
    pub number: u32,
    pub value: u32,
}

/// What a call does: the update, or what the view shows.
#[derive(Clone, Debug, PartialEq, Eq)]
pub enum Op {
    Update(Entry),
    View(Vec<Entry>),
}

/// A call in the printed order. Calls are numbered from 1 in the order of their begins.
#[derive(Clone, Debug, PartialEq, Eq)]
pub struct Step {
    pub call: u32,
    pub process: u16,
    pub op: Op,
}

/// A call that a fault concerns, with the records of its begin and its end. The header is record 1, and a pending call has no end.
#[derive(Clone, Debug, PartialEq, Eq)]
pub struct Call {
    pub call: u32,
    pub process: u16,
    pub op: Op,
    pub begin: u32,
    pub end: Option<u32>,
}

/// An update that a fault names, and its call if the history has it.
#[derive(Clone, Debug, PartialEq, Eq)]
pub struct NamedUpdate {
    pub component: u8,
    pub number: u32,
    pub call: Option<Call>,
}

/// Whether a view shows a number that is too old or too early.
#[derive(Clone, Copy, Debug, PartialEq, Eq)]
pub enum Side {
    Old,
    Early,
}

/// What the two views of a read fault show of a component, 0 for nothing. The update is the one of the greater number.
#[derive(Clone, Debug, PartialEq, Eq)]
pub struct Difference {
    pub component: u8,
    pub view_number: u32,
    pub other_number: u32,
    pub update: Option<Call>,
}

/// How many faults of a kind there are, and the first of them.
#[derive(Clone, Debug, PartialEq, Eq)]
pub enum Fault {
    /// The view shows an entry that no update wrote. The update is the one of that number.
    Integrity { count: u64, view: Call, entry: Entry, update: Option<Call> },
    /// The view shows this number, or 0 for nothing. The update is the one that an old view misses, or that an early one shows.
    Proximity { count: u64, view: Call, component: u8, number: u32, side: Side, update: Option<Call> },
    /// The view shows more of the component than the other, which shows more elsewhere or begins after it. The views differ in the
    /// component, and in the one of which the other shows more.
    Read { count: u64, view: Call, other: Call, component: u8, differs: Vec<Difference> },
    /// The view shows an update, and misses one that preceded it.
    Write { count: u64, view: Call, misses: NamedUpdate, shows: NamedUpdate },
}

/// Why a text is not a history.
#[derive(Clone, Debug, PartialEq, Eq)]
pub struct Refusal {
    /// The first record at fault; 0 is the text as a whole.
    pub record: u32,
    /// The word for what is wrong with it.
    pub word: String,
    /// What `snapjudge explain` writes.
    pub sentences: String,
}

/// What a run has shown of a component: the process of its first update, its updates, and the views that list it.
#[derive(Clone, Copy, Debug, PartialEq, Eq)]
pub struct ComponentStats {
    pub component: u8,
    pub writer: u16,
    pub updates: u32,
    pub views: u32,
}

/// What a run has shown, as `snapjudge stats` counts it. It is not a verdict. Calls overlap if neither precedes the other.
#[derive(Clone, Debug, PartialEq, Eq)]
pub struct Stats {
    pub events: u32,
    pub calls: u32,
    pub pending: u32,
    /// Completed views.
    pub views: u32,
    pub updates: u32,
    pub processes: u32,
    pub components: u32,
    /// The views that overlap an update, those that overlap another view, and those that overlap neither.
    pub overlap_update: u32,
    pub overlap_view: u32,
    pub overlap_nothing: u32,
    /// The updates that no view lists.
    pub unshown: u32,
    /// The most calls that are open at one time.
    pub most_open: u32,
    /// The events from the begin to the end of the longest call, both counted; 0 if no call has an end.
    pub longest: u32,
    pub shows_concurrency: bool,
    /// The components that have an update, in rising order.
    pub by_component: Vec<ComponentStats>,
}

/// The object of a history, without its status.
pub(crate) struct Found {
    pub counts: Counts,
    pub monotone: bool,
    pub faults: Vec<Fault>,
}

fn entry(json: &Json) -> Option<Entry> {
    let (component, number) = (json.at("component")?.number()?, json.at("number")?.number()?);
    Some(Entry { component, number, value: json.at("value")?.number()? })
}

fn call(json: &Json) -> Option<Call> {
    let entries = json.at("entries")?.items(entry)?;
    Some(Call {
        call: json.at("call")?.number()?,
        process: json.at("process")?.number()?,
        op: if json.at("op")?.text()? == "update" { Op::Update(*entries.first()?) } else { Op::View(entries) },
        begin: json.at("begin")?.number()?,
        end: json.at("end")?.unless_null(Json::number)?,
    })
}

fn named(json: &Json) -> Option<NamedUpdate> {
    let (component, number) = (json.at("component")?.number()?, json.at("number")?.number()?);
    Some(NamedUpdate { component, number, call: json.at("update")?.unless_null(call)? })
}

fn integrity(json: &Json) -> Option<Fault> {
    let update = json.at("update")?.unless_null(call)?;
    let (count, view, entry) = (json.at("count")?.number()?, call(json.at("view")?)?, entry(json.at("entry")?)?);
    Some(Fault::Integrity { count, view, entry, update })
}

fn proximity(json: &Json) -> Option<Fault> {
    Some(Fault::Proximity {
        count: json.at("count")?.number()?,
        view: call(json.at("view")?)?,
        component: json.at("component")?.number()?,
        number: json.at("number")?.number()?,
        side: if json.at("side")?.text()? == "old" { Side::Old } else { Side::Early },
        update: json.at("update")?.unless_null(call)?,
    })
}

fn difference(json: &Json) -> Option<Difference> {
    Some(Difference {
        component: json.at("component")?.number()?,
        view_number: json.at("view_number")?.number()?,
        other_number: json.at("other_number")?.number()?,
        update: json.at("update")?.unless_null(call)?,
    })
}

fn read(json: &Json) -> Option<Fault> {
    let (view, other) = (call(json.at("view")?)?, call(json.at("other")?)?);
    let component = json.at("component")?.number()?;
    let differs = json.at("differs")?.items(difference)?;
    Some(Fault::Read { count: json.at("count")?.number()?, view, other, component, differs })
}

fn write(json: &Json) -> Option<Fault> {
    let (misses, shows) = (named(json.at("misses")?)?, named(json.at("shows")?)?);
    Some(Fault::Write { count: json.at("count")?.number()?, view: call(json.at("view")?)?, misses, shows })
}

pub(crate) fn found(json: &Json) -> Option<Found> {
    let counts = Counts {
        events: json.at("events")?.number()?,
        calls: json.at("calls")?.number()?,
        pending: json.at("pending")?.number()?,
        views: json.at("views")?.number()?,
    };
    let faults = [
        json.at("integrity")?.unless_null(integrity)?,
        json.at("proximity")?.unless_null(proximity)?,
        json.at("read")?.unless_null(read)?,
        json.at("write")?.unless_null(write)?,
    ];
    Some(Found { counts, monotone: json.at("monotone")?.is_true()?, faults: faults.into_iter().flatten().collect() })
}

fn component_stats(json: &Json) -> Option<ComponentStats> {
    Some(ComponentStats {
        component: json.at("component")?.number()?,
        writer: json.at("writer")?.number()?,
        updates: json.at("updates")?.number()?,
        views: json.at("views")?.number()?,
    })
}

/// What a run has shown, by its object.
pub(crate) fn stats(json: &Json) -> Option<Stats> {
    let number = |name| json.at(name)?.number();
    Some(Stats {
        events: number("events")?,
        calls: number("calls")?,
        pending: number("pending")?,
        views: number("views")?,
        updates: number("updates")?,
        processes: number("processes")?,
        components: number("components")?,
        overlap_update: number("overlap_update")?,
        overlap_view: number("overlap_view")?,
        overlap_nothing: number("overlap_nothing")?,
        unshown: number("unshown")?,
        most_open: number("most_open")?,
        longest: number("longest")?,
        shows_concurrency: json.at("shows_concurrency")?.is_true()?,
        by_component: json.at("by_component")?.items(component_stats)?,
    })
}

/// The record and the word of a text that is not a history.
pub(crate) fn refused(json: &Json) -> Option<(u32, String)> {
    let refused = json.at("refused")?;
    Some((refused.at("record")?.number()?, refused.at("fault")?.text()?.to_owned()))
}

/// The order of an atomic history, which only its report has: below a line `order 2` lines such as `2 p1 view 0:1:7`.
pub(crate) fn order(report: &str) -> Option<Vec<Step>> {
    report.lines().skip_while(|line| !line.starts_with("order ")).skip(1).map(step).collect()
}

fn step(line: &str) -> Option<Step> {
    let mut words = line.split(' ');
    let (call, process) = (words.next()?.parse().ok()?, words.next()?.strip_prefix('p')?.parse().ok()?);
    let is_update = words.next()? == "update";
    let entries: Vec<Entry> = words.map(shown).collect::<Option<_>>()?;
    Some(Step { call, process, op: if is_update { Op::Update(*entries.first()?) } else { Op::View(entries) } })
}

fn shown(word: &str) -> Option<Entry> {
    let mut parts = word.split(':');
    let (component, number) = (parts.next()?.parse().ok()?, parts.next()?.parse().ok()?);
    Some(Entry { component, number, value: parts.next()?.parse().ok()? })
}
