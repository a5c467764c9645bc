//! The commands, from an input to an output or a message.

use crate::decode::decode;
use crate::encode::encode;
use crate::eval;
use crate::lines::written;
use crate::map;
use crate::model::*;
use crate::parameters;
use crate::show;
use crate::source::{Piece, Source};
use crate::svg;
use crate::tree;
use crate::warn;
use crate::words;
use ciztarmo::Work;

/// An output, and what is said beside it.
#[derive(Debug, Default)]
pub struct Done {
    pub output: Vec<u8>,
    pub remarks: Vec<String>,
}

/// What a command answers: its output, or a message that says what is wrong and where.
pub type Answer = Result<Done, String>;

impl Done {
    fn only(output: impl Into<Vec<u8>>) -> Done {
        Done {
            output: output.into(),
            remarks: Vec::new(),
        }
    }

    /// Notes a refusal where nothing is checked; else it ends the command.
    fn note(&mut self, accepted: Result<(), String>, unchecked: bool) -> Result<(), String> {
        match accepted {
            Err(message) if unchecked => {
                let remark = format!("{message}; written all the same (--unchecked)");
                self.remarks.push(remark);
                Ok(())
            }
            other => other,
        }
    }
}

/// How much stack a command gets. Reading and writing call themselves for what is nested; the
/// deepest text needs less than a tenth of it.
const STACK: usize = 32 << 20;

/// Runs a command on a stack of its own, so that its room does not depend on the caller.
fn roomy(command: impl FnOnce() -> Answer + Send) -> Answer {
    std::thread::scope(|scope| {
        let builder = std::thread::Builder::new().stack_size(STACK);
        match builder.spawn_scoped(scope, command) {
            Ok(thread) => thread
                .join()
                .unwrap_or_else(|p| std::panic::resume_unwind(p)),
            Err(e) => Err(format!("no thread can be started: {e}")),
        }
    })
}

/// Text to blocks.
pub fn blocks(file: &str, input: &[u8], unchecked: bool) -> Answer {
    roomy(|| to_blocks(file, input, unchecked))
}

/// Blocks to text.
pub fn show(file: &str, input: &[u8], unchecked: bool) -> Answer {
    roomy(|| to_text(file, input, unchecked))
}

/// The layouts of an input, and of its sets, as trees.
pub fn tree(file: &str, input: &[u8]) -> Answer {
    roomy(|| to_tree(file, input))
}

/// The answers to the runs behind a set, in words.
pub fn lengths(file: &str, input: &[u8]) -> Answer {
    roomy(|| to_words(file, input))
}

/// Whether every block is accepted and every set is built; the remarks warn of what is drawn and
/// not counted.
pub fn check(file: &str, input: &[u8]) -> Answer {
    roomy(|| checked(file, input))
}

/// The bytes of the one layout of an input, or of its one set.
pub fn layout(file: &str, input: &[u8]) -> Answer {
    roomy(|| to_layout(file, input))
}

/// What a record of a type wants to be told.
pub fn parameters(file: &str, input: &[u8], name: &str) -> Answer {
    roomy(|| to_parameters(file, input, name))
}

/// What is asked of a map: the type, and where its values come from.
#[derive(Debug, Default)]
pub struct Asked {
    pub name: String,
    /// Values by name. Without any, those of a run of the file are taken.
    pub values: Vec<(String, u64)>,
    /// Which run of the file, from 0. Without it, the first of the type.
    pub run: Option<usize>,
    /// The buffer length, in place of the run's.
    pub length: Option<u64>,
    pub svg: bool,
}

/// What lies where in a record, as text or as SVG.
pub fn map(file: &str, input: &[u8], asked: &Asked) -> Answer {
    roomy(|| to_map(file, input, asked))
}

fn to_blocks(file: &str, input: &[u8], unchecked: bool) -> Answer {
    let source = Source::read_text(file, input)?;
    let mut work = Work::new();
    let mut done = Done::default();
    for piece in &source.pieces {
        done.note(source.accepted(&mut work, piece), unchecked)?;
        done.output.extend(&piece.bytes);
    }
    Ok(done)
}

fn to_text(file: &str, input: &[u8], unchecked: bool) -> Answer {
    let source = Source::read_blocks(file, input)?;
    let mut work = Work::new();
    let mut done = Done::default();
    let mut blocks = Vec::new();
    for piece in &source.pieces {
        done.note(source.accepted(&mut work, piece), unchecked)?;
        blocks.push(piece.block().map_err(|fault| {
            let byte = piece.file_offset() + fault.offset;
            format!("{file}: byte {byte}: it has no text: {}", fault.message)
        })?);
    }
    done.output = show::show(&blocks).into_bytes();
    Ok(done)
}

fn to_tree(file: &str, input: &[u8]) -> Answer {
    let source = Source::read(file, input)?;
    let mut work = Work::new();
    let mut drawn = Vec::new();
    for piece in &source.pieces {
        source.accepted(&mut work, piece)?;
        if is_types(piece) {
            let types = Types::read(&source, &mut work, piece)?;
            drawn.push(tree::draw(&types.layout, &types.set));
        }
    }
    if drawn.is_empty() {
        return Err(format!("{file}: neither a set nor a layout stands in it"));
    }
    drawn.retain(|drawing| !drawing.is_empty());
    Ok(Done::only(drawn.join("\n")))
}

fn to_layout(file: &str, input: &[u8]) -> Answer {
    let source = Source::read(file, input)?;
    let mut work = Work::new();
    // All is asked, so that no layout comes from a file that is wrong elsewhere.
    for piece in &source.pieces {
        source.accepted(&mut work, piece)?;
    }
    let piece = the_types(&source)?;
    Ok(Done::only(built_or_as_is(&source, &mut work, piece)?))
}

/// The one piece of an input that holds types. A device has one layout, so there is no choice of
/// two.
fn the_types(source: &Source) -> Result<&Piece, String> {
    let mut pieces = source.pieces.iter().filter(|p| is_types(p));
    let file = &source.file;
    let Some(first) = pieces.next() else {
        return Err(format!("{file}: neither a set nor a layout stands in it"));
    };
    match pieces.next() {
        None => Ok(first),
        Some(second) => Err(format!(
            "{}: a second set or layout, and one is asked for (the first: {})",
            source.place(second),
            source.place(first)
        )),
    }
}

fn is_types(piece: &Piece) -> bool {
    matches!(piece.kind, SET | LAYOUT)
}

/// The bytes of the layout that a set is built to, or of a layout.
fn built_or_as_is(source: &Source, work: &mut Work, piece: &Piece) -> Result<Vec<u8>, String> {
    match piece.kind {
        SET => source.built(work, piece),
        _ => Ok(piece.bytes.clone()),
    }
}

fn layout_of(file: &str, layout: &[u8]) -> Result<Layout, String> {
    match decode(layout) {
        Ok(Block::Layout(layout)) => Ok(layout),
        Ok(_) => Err(format!("{file}: no layout was built")),
        Err(fault) => Err(format!(
            "{file}: the layout can't be drawn: {}",
            fault.message
        )),
    }
}

/// A set or layout of an input: its layout, and the set's types if it was a set.
struct Types {
    layout: Layout,
    set: Vec<Type>,
}

impl Types {
    fn read(source: &Source, work: &mut Work, piece: &Piece) -> Result<Types, String> {
        let layout = built_or_as_is(source, work, piece)?;
        let set = match piece.block() {
            Ok(Block::Set(set)) => set.types,
            _ => Vec::new(),
        };
        Ok(Types {
            layout: layout_of(&source.file, &layout)?,
            set,
        })
    }

    fn tree(&self, name: &str) -> Option<&TypeTree> {
        self.layout.types.iter().find(|t| t.name == name)
    }

    fn drawn(&self, name: &str) -> Option<&Type> {
        self.set.iter().find(|t| t.name == name)
    }
}

/// What is said where a type is asked for that is not there.
fn no_type(file: &str, name: &str, types: &[TypeTree]) -> String {
    let names: Vec<String> = types.iter().map(|t| written(&t.name)).collect();
    let there = match names.is_empty() {
        true => "there are no types".to_string(),
        false => format!("there are {}", names.join(", ")),
    };
    let control = match name.bytes().any(|b| b.is_ascii_control()) {
        true => " (a name has no byte below 0x20 and no 0x7F)",
        false => "",
    };
    let name = written(name);
    format!("{file}: no type has the name {name}{control}; {there}")
}

fn to_parameters(file: &str, input: &[u8], name: &str) -> Answer {
    let source = Source::read(file, input)?;
    let mut work = Work::new();
    for piece in &source.pieces {
        source.accepted(&mut work, piece)?;
    }
    let types = Types::read(&source, &mut work, the_types(&source)?)?;
    match types.tree(name) {
        Some(tree) => {
            let (all, drawn) = (&types.layout.types, types.drawn(name));
            Ok(Done::only(parameters::describe(all, tree, drawn)))
        }
        None => Err(no_type(file, name, &types.layout.types)),
    }
}

fn to_map(file: &str, input: &[u8], asked: &Asked) -> Answer {
    let source = Source::read(file, input)?;
    let mut work = Work::new();
    for piece in &source.pieces {
        source.accepted(&mut work, piece)?;
    }
    let piece = the_types(&source)?;
    if piece.kind == LAYOUT {
        let place = source.place(piece);
        return Err(format!(
            "{place}: a layout has no fields to draw: a map is drawn of its set"
        ));
    }
    let bytes = source.built(&mut work, piece)?;
    let types = Types::read(&source, &mut work, piece)?;
    let name = written(&asked.name);
    if types.tree(&asked.name).is_none() {
        return Err(no_type(file, &asked.name, &types.layout.types));
    }
    let (run, from) = run_of(&source, asked)?;
    let mut done = Done::default();
    for warning in warn::of_run(&types.layout.types, &run) {
        done.remarks
            .push(format!("{from}: warning: {}", warning.words));
    }
    let counted = count_of(&mut work, &bytes, &types, &run, &from);
    // A wrong name is the likely reason where a value is missing, so both are told.
    let (count, small) = counted.map_err(|message| {
        done.remarks.push(message);
        done.remarks.join("\n")
    })?;
    let mut held: eval::Held = values_of(&run).collect();
    held.entry("__buffer_size".to_string())
        .or_insert(run.length);
    let map = map::draw(&types.set, &types.layout.types, &asked.name, &held);
    // What is drawn is not proved; that its parts are all that is counted is asked here.
    let Some(map) = map.filter(|m| m.rows.first().is_some_and(|r| r.count == count)) else {
        return Err(format!(
            "{from}: {name}: {count} bytes are counted, and the drawing does not arrive at them"
        ));
    };
    let title = title(&name, count, &run, small);
    done.output = match asked.svg {
        false => map::text(&title, &map),
        true if count > svg::MOST_BYTES => {
            let most = svg::MOST_BYTES;
            return Err(format!(
                "{from}: {name}: {count} bytes, and SVG is drawn of {most} at most; as text it is drawn"
            ));
        }
        true => svg::draw(&title, &map),
    }
    .into_bytes();
    Ok(done)
}

/// The run that is drawn, and where it comes from.
fn run_of(source: &Source, asked: &Asked) -> Result<(Run, String), String> {
    let file = &source.file;
    let runs = source
        .pieces
        .iter()
        .filter_map(|piece| match piece.block() {
            Ok(Block::Run(run)) => Some((run, source.place(piece))),
            _ => None,
        });
    let mut runs: Vec<(Run, String)> = runs.collect();
    let name = written(&asked.name);
    let there = runs.len();
    let chosen = match asked.run {
        _ if !asked.values.is_empty() => None,
        Some(place) if place >= there => {
            return Err(format!(
                "{file}: no run {place}: the file has {there}, counted from 0"
            ));
        }
        Some(place) if runs[place].0.name != asked.name => {
            let other = written(&runs[place].0.name);
            return Err(format!(
                "{}: run {place} is of {other}, not of {name}",
                runs[place].1
            ));
        }
        Some(place) => Some(place),
        None => runs.iter().position(|(run, _)| run.name == asked.name),
    };
    let (mut run, from) = match chosen {
        Some(place) => runs.swap_remove(place),
        None => (run_with(asked), file.clone()),
    };
    run.length = asked.length.unwrap_or(run.length);
    Ok((run, from))
}

/// A run of the values that were handed over, in the order of blocks. Its buffer is large enough for
/// any record, unless a length is asked for.
fn run_with(asked: &Asked) -> Run {
    let spot = Spot::default();
    let mut entries: Vec<Value> = Vec::new();
    for (name, number) in &asked.values {
        entries.push(Value {
            spot,
            name: name.clone(),
            number: *number,
        });
    }
    entries.sort_by(|a, b| a.name.cmp(&b.name));
    Run {
        spot,
        name: asked.name.clone(),
        length: u64::MAX,
        values: Values { spot, entries },
    }
}

fn values_of(run: &Run) -> impl Iterator<Item = (String, u64)> + '_ {
    let entries = run.values.entries.iter();
    entries.map(|value| (value.name.clone(), value.number))
}

/// The count of a run by the proved call, and whether the buffer is too small for it.
fn count_of(
    work: &mut Work,
    layout: &[u8],
    types: &Types,
    run: &Run,
    from: &str,
) -> Result<(u64, bool), String> {
    let block = Block::Run(run.clone());
    let written_run = encode(&block).map_err(|p| format!("{from}: {}", p.message))?;
    let answer = work.validate_run(layout, &written_run.bytes);
    match answer {
        Ok(count) => Ok((count, false)),
        Err(refusal) if refusal.number().code() == 25 => Ok((refusal.value(), true)),
        Err(refusal) => {
            let number = refusal.number().code();
            let said = match number {
                1..=6 => format!("refused {number}: {}", words::reading(number, VALUES, RUN)),
                _ => words::answer(Err(refusal), layout, &types.layout.types, run),
            };
            let name = written(&run.name);
            let help = match number {
                21 => format!("; `text parameters` lists what {name} is told"),
                _ => String::new(),
            };
            Err(format!("{from}: {name}: {said}{help}"))
        }
    }
}

/// What stands above a drawing: the type with its count, and the values.
fn title(name: &str, count: u64, run: &Run, small: bool) -> map::Title {
    let bytes = if count == 1 { "byte" } else { "bytes" };
    let length = match (run.length, small) {
        (u64::MAX, _) => String::new(),
        (length, false) => format!(" of {length}"),
        (length, true) => format!(", and {length} are there (refused with 25)"),
    };
    let value = |(name, number): (String, u64)| format!("{} = {number}", written(&name));
    map::Title {
        head: format!("{name}: {count} {bytes}{length}"),
        values: values_of(run).map(value).collect(),
    }
}

fn to_words(file: &str, input: &[u8]) -> Answer {
    let source = Source::read(file, input)?;
    let mut work = Work::new();
    for piece in &source.pieces {
        source.accepted(&mut work, piece)?;
    }
    let (set, runs) = match source.pieces.split_first() {
        Some((set, runs)) if set.kind == SET => (set, runs),
        _ => return Err(format!("{file}: a set must stand first")),
    };
    let layout = source.built(&mut work, set)?;
    let trees = layout_of(file, &layout)?.types;
    let mut out = String::new();
    for piece in runs {
        let place = source.place(piece);
        let Ok(Block::Run(run)) = piece.block() else {
            return Err(format!("{place}: behind the set stand runs only"));
        };
        let answer = work.validate_run(&layout, &piece.bytes);
        let said = words::answer(answer, &layout, &trees, &run);
        out += &format!("{place}: {}: {said}\n", written(&run.name));
    }
    Ok(Done::only(out))
}

fn checked(file: &str, input: &[u8]) -> Answer {
    let source = Source::read(file, input)?;
    let mut work = Work::new();
    let mut done = Done::default();
    // The types that runs are of: those of the last set or layout before them.
    let mut types = Vec::new();
    for piece in &source.pieces {
        source.accepted(&mut work, piece)?;
        if is_types(piece) {
            let layout = built_or_as_is(&source, &mut work, piece)?;
            types = layout_of(file, &layout)?.types;
        }
        let found = match piece.block() {
            Ok(Block::Set(set)) => {
                let drawn = |tree: &TypeTree| set.types.iter().find(|t| t.name == tree.name);
                let spot = |tree: &TypeTree| drawn(tree).map_or(set.spot, |ty| ty.spot);
                let mut found = warn::of_set(&set);
                found.extend(warn::of_calls(&types, spot));
                found.sort_by_key(|w| (w.spot.line, w.spot.column));
                found
            }
            Ok(Block::Layout(layout)) => warn::of_calls(&layout.types, |tree| tree.spot),
            Ok(Block::Run(run)) => warn::of_run(&types, &run),
            _ => Vec::new(),
        };
        for warning in found {
            let place = source.place_of(piece, warning.spot);
            let remark = format!("{place}: warning: {}", warning.words);
            done.remarks.push(remark);
        }
    }
    Ok(done)
}
