//! Images of grids: what is written and read, each fault, and readers and writers that are slow or fail.
ghost use Rattle.std.specs.Prelude.{◌≡◌, ◌<◌, ◌≤◌, All, IfOk, vec_len};
ghost use Rattle.std.specs.Prelude.{length as length_of};
ghost use Rattle.grid.specs.GridState.{states, maps_of, IsHonest};

use crate::stores::grids::{failure_at, gathered, servers_at, stores_of};
use crate::stores::one_store::{index_at, number_at, store_of};
use crate::lines::{Case, NoAnswer, debug, done, fixed, shown};
use grid::laws::image_laws;
use grid::{Grid, GridFault};
use octets::fakes::{AtTheEnd, SlowReader, SlowWriter};
use share_store::{FailAt, Store};
use std::alloc::Global;
use std::io;
use std::io::Read;
use std::rc::RcSlice;

/// How many servers and how much room the grids of these cases have, where no word says it.
const SERVERS: usize = 5;

const ROOM: u64 = 1_000;

/// The answer to a case of an image.
pub fn answer(
    alloc: Global,
    held: &mut Option<Grid<FailAt>>,
    left: &mut Vec<FailAt>,
    case: &Case<'_>,
) -> Result<String, NoAnswer> {
    match case.word(1)? {
        "read" => read(alloc, held, left, case),
        "left" => left_at(alloc, left, case.number(2)? as usize),
        "left-has" => left_has(alloc, left, case),
        "cuts" => cuts(alloc, &case.bytes(alloc, 2)?),
        "slow-reader" => slow_reader(alloc, &case.bytes(alloc, 2)?),
        "slow-writer" => slow_writer(alloc, &case.bytes(alloc, 2)?, &case.bytes(alloc, 3)?),
        "above-255" => above_255(alloc),
        "widest" => asked_widely(alloc, &case.bytes(alloc, 2)?),
        _ => match held {
            Some(grid) => of_grid(alloc, grid, case),
            None => Err(NoAnswer::Question),
        },
    }
}

/// The answer to a case of the grid's own image.
fn of_grid(alloc: Global, grid: &mut Grid<FailAt>, case: &Case<'_>) -> Result<String, NoAnswer> {
    match case.word(1)? {
        "write" => written(alloc, grid),
        "gather" => gathered(alloc, grid, index_at(case, 2)?),
        "copy" => copy(alloc, grid, case),
        _ => Err(NoAnswer::Question),
    }
}

/// Reads an image into as many stores with this room; what a refusal leaves of them is kept.
fn read(
    alloc: Global,
    held: &mut Option<Grid<FailAt>>,
    left: &mut Vec<FailAt>,
    case: &Case<'_>,
) -> Result<String, NoAnswer> {
    let image = case.bytes(alloc, 2)?;
    let count = servers_at(case, 3)?;
    let stores = stores_of(alloc, count, case.number(4)?, failure_at(case, 5)?)?;
    let mut reader = image.as_slice();
    match Grid::read_image(alloc, stores, &mut reader) {
        Ok(grid) => {
            *held = Some(grid);
            fixed(alloc, "ok")
        }
        Err((fault, stores)) => {
            *left = stores;
            debug(alloc, &fault)
        }
    }
}

/// Room, bytes and failures of a store that was left.
fn left_at(alloc: Global, left: &[FailAt], server: usize) -> Result<String, NoAnswer> {
    match left.get(server) {
        Some(store) => debug(alloc, &(store.room(), store.held(), store.failures())),
        None => Err(NoAnswer::Word(2)),
    }
}

/// Whether a share stands at a store that was left.
fn left_has(alloc: Global, left: &mut [FailAt], case: &Case<'_>) -> Result<String, NoAnswer> {
    match left.get_mut(case.number(2)? as usize) {
        Some(store) => debug(alloc, &store.has(index_at(case, 3)?, number_at(case, 4)?)?),
        None => Err(NoAnswer::Word(2)),
    }
}

/// The image of the grid.
fn written(alloc: Global, grid: &mut Grid<FailAt>) -> Result<String, NoAnswer> {
    let mut image = Vec::new(alloc);
    match grid.write_image(&mut image) {
        Ok(()) => Ok(shown(alloc, &image)?),
        Err(fault) if image.is_empty() => debug(alloc, &fault),
        Err(fault) => debug(alloc, &(fault, image.len())),
    }
}

/// A grid of these stores with what another one holds, by way of its image.
fn copy_through_image<S: Store, T: Store>(
    alloc: Global,
    grid: &mut Grid<S>,
    stores: Vec<T>,
) -> Result<Grid<T>, (GridFault, Vec<T>)>
    requires some { 0 < vec_len stores }
    requires few { vec_len stores ≤ 256 }
    requires many { vec_len stores ≡ length_of grid.old.stores }
    requires empty { All (λ store. T.held store ≡ 0) stores.items }
    ensures same { IsHonest grid.old →
        IsHonest (states T.shares T.room T.held T.failures T.honest T.history stores.items) →
        IfOk result (λ copy. maps_of copy ≡ maps_of grid.old) }
{
    image_laws();
    let mut image = Vec::new(alloc);
    if let Err(error) = grid.write_image(&mut image) {
        return Err((error, stores));
    }
    let mut reader = image.as_slice();
    Grid::read_image(alloc, stores, &mut reader)
}

/// Copies the grid by its image into stores of this room, and changes a byte of the copy.
fn copy(alloc: Global, grid: &mut Grid<FailAt>, case: &Case<'_>) -> Result<String, NoAnswer> {
    let stores = stores_of(alloc, grid.servers(), case.number(2)?, (0, 0, "once"))?;
    match copy_through_image(alloc, grid, stores) {
        Ok(mut copy) => {
            let (server, number) = (case.number(3)? as usize, number_at(case, 5)?);
            done(
                alloc,
                copy.spoil(server, index_at(case, 4)?, number, case.number(6)?),
            )
        }
        Err((fault, stores)) => {
            drop(stores);
            debug(alloc, &fault)
        }
    }
}

/// The fault of an image that is read into five stores with a reader, if it has one.
fn fault_of<R: Read>(alloc: Global, reader: &mut R) -> Result<Option<GridFault>, NoAnswer> {
    let stores = stores_of(alloc, SERVERS, ROOM, (0, 0, "once"))?;
    match Grid::read_image(alloc, stores, reader) {
        Ok(_) => Ok(None),
        Err((fault, _)) => Ok(Some(fault)),
    }
}

/// The fault of an image of two servers, the second of which has shares 1 and 256, of four bytes and of one.
fn above_255(alloc: Global) -> Result<String, NoAnswer> {
    let mut stores = Vec::new(alloc);
    stores.push(store_of(alloc, 10, 0, "once"))?;
    stores.push(store_of(alloc, 10, 0, "once"))?;
    for (number, length) in [(1_u16, 4_usize), (256, 1)] {
        if let Some(store) = stores.get_mut(1) {
            let bytes = vec![in alloc; 5_u8; length.max(1)]?;
            let _ = store.put([3; 16], number, RcSlice::from_vec(bytes)?);
        }
    }
    if stores.len() != 2 {
        return Err(NoAnswer::Question);
    }
    let fault = Grid::new(stores).write_image(&mut Vec::new(alloc)).err();
    debug(alloc, &fault)
}

/// Outcomes in a row, each with how often it came one after the other.
#[derive(Drop)]
struct Tally {
    last: Option<GridFault>,
    count: u64,
    text: String,
}

impl Tally {
    /// One more outcome.
    fn count(&mut self, alloc: Global, fault: Option<GridFault>) -> Result<(), NoAnswer> {
        if self.count > 0 && self.last != fault {
            self.close(alloc)?;
        }
        self.last = fault;
        self.count = self.count.saturating_add(1);
        Ok(())
    }

    /// Writes the outcome that came last.
    fn close(&mut self, alloc: Global) -> Result<(), NoAnswer> {
        let name = match self.last {
            Some(GridFault::BadImage(place)) => debug(alloc, &place)?,
            Some(fault) => debug(alloc, &fault)?,
            None => fixed(alloc, "ok")?,
        };
        if !self.text.is_empty() {
            self.text.push(' ')?;
        }
        self.text.push_str(&name)?;
        self.text.push('*')?;
        self.text.push_str(&debug(alloc, &self.count)?)?;
        self.count = 0;
        Ok(())
    }

    /// Nothing yet.
    fn new(alloc: Global) -> Tally {
        Tally {
            last: None,
            count: 0,
            text: String::new(alloc),
        }
    }

    /// All outcomes.
    fn finish(mut self, alloc: Global) -> Result<String, NoAnswer> {
        self.close(alloc)?;
        Ok(self.text)
    }
}

/// The place of the fault of each beginning of an image, from none of its bytes to all but one.
fn cuts(alloc: Global, image: &[u8]) -> Result<String, NoAnswer> {
    let mut tally = Tally::new(alloc);
    for length in 0..image.len() {
        let mut reader = image.get(..length).unwrap_or(image);
        tally.count(alloc, fault_of(alloc, &mut reader)?)?;
    }
    tally.finish(alloc)
}

/// What comes of a reader that gives a byte at a time, is interrupted each other time and fails after so many bytes: none
/// to all, and then of one that doesn't fail.
fn slow_reader(alloc: Global, image: &[u8]) -> Result<String, NoAnswer> {
    let mut tally = Tally::new(alloc);
    for left in 0..=image.len().saturating_add(1) {
        let mut reader = SlowReader {
            bytes: image.get(..left).unwrap_or(image),
            at_a_time: 1,
            interrupts: Some(true),
            fails: left <= image.len(),
        };
        tally.count(alloc, fault_of(alloc, &mut reader)?)?;
    }
    tally.finish(alloc)
}

/// What comes of a writer that takes two bytes at a time, is interrupted each other time, and has room for so many bytes:
/// none to one more than the image has. An image is read first; `other bytes` where what is written is no beginning of the
/// wanted one.
fn slow_writer(alloc: Global, image: &[u8], wanted: &[u8]) -> Result<String, NoAnswer> {
    let mut tally = Tally::new(alloc);
    for room in 0..=wanted.len().saturating_add(1) {
        for at_the_end in [AtTheEnd::Fails, AtTheEnd::TakesNothing] {
            match written_to(alloc, image, room, at_the_end)? {
                Some((fault, held)) if held.as_slice() == wanted.get(..room).unwrap_or(wanted) => {
                    tally.count(alloc, fault)?
                }
                _ => return fixed(alloc, "other bytes"),
            }
        }
    }
    tally.finish(alloc)
}

/// What such a writer takes of the image of a grid that was read from one.
fn written_to(
    alloc: Global,
    image: &[u8],
    room: usize,
    at_the_end: AtTheEnd,
) -> Result<Option<(Option<GridFault>, Vec<u8>)>, NoAnswer> {
    let mut reader = image;
    let stores = stores_of(alloc, SERVERS, ROOM, (0, 0, "once"))?;
    let Ok(mut grid) = Grid::read_image(alloc, stores, &mut reader) else {
        return Ok(None);
    };
    let mut writer = SlowWriter {
        held: Vec::new(alloc),
        room,
        at_a_time: 2,
        interrupts: Some(true),
        at_the_end,
        flushes: true,
    };
    let fault = grid.write_image(&mut writer).err();
    let SlowWriter { held, .. } = writer;
    Ok(Some((fault, held)))
}

/// A reader that keeps how many bytes it was asked for at once at most.
#[derive(Drop)]
struct Widest<'a> {
    bytes: &'a [u8],
    asked: usize,
}

impl Read for Widest<'_> {
    fn read(&mut self, buf: &mut [u8]) -> io::Result<usize> {
        self.asked = self.asked.max(buf.len());
        self.bytes.read(buf)
    }
}

/// The fault of an image, and how many bytes were asked for at once at most.
fn asked_widely(alloc: Global, image: &[u8]) -> Result<String, NoAnswer> {
    let mut reader = Widest {
        bytes: image,
        asked: 0,
    };
    let fault = fault_of(alloc, &mut reader)?;
    debug(alloc, &(fault, reader.asked))
}
