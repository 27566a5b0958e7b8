//! The layer of turns above the kernel (document 02, request (m)) across the C boundary:
//! its exported functions as include/balkwizu.h declares them, and what they are lent.

use reference::words::bits;

use crate::c_call;
use crate::kernels::lent::{Failure, Fenced, Forbidden};

/// The beginning, of words that are valid for reads, those of the state and of the holders
/// for writes too, and that don't overlap. It may turn out to write the table.
type Begin = unsafe fn(*const [u32], state: *mut [u32], holders: *mut [u32]) -> u32;

/// Handing in, of words that are valid for reads, the state's for writes too, and that
/// don't overlap. It may turn out to write the others: no reference says that it doesn't.
type HandIn = unsafe fn(*const [u32], state: *mut [u32], domain: u32, words: *const [u32]) -> u32;

/// A turn, on the table, the state, the holders and the answer.
type Turn = fn(&mut [u32], &mut [u32], &mut [u32], &mut [u32]) -> u32;

/// The functions of a layer of turns.
#[derive(Clone, Copy)]
pub struct Layer {
    /// A code.
    pub begin: Begin,
    /// A code.
    pub hand_in: HandIn,
    /// A code in bits 15–0 and the calls served in bits 31–16.
    pub turn: Turn,
}

impl Layer {
    /// Begins on a table: a code.
    pub fn begin(&self, table: &[u32], state: &mut [u32], holders: &mut [u32]) -> u32 {
        // SAFETY: three slices, each valid for its length and aligned; those that are
        // written are borrowed alone.
        unsafe { (self.begin)(table, state, holders) }
    }

    /// Hands in the words of a call for a domain: a code.
    pub fn hand_in(&self, table: &[u32], state: &mut [u32], domain: u32, words: &[u32]) -> u32 {
        // SAFETY: three slices, each valid for its length and aligned; the one that is
        // written is borrowed alone.
        unsafe { (self.hand_in)(table, state, domain, words) }
    }
}

/// The layer of the proved archive for it.
pub const PROVED_LAYER: Layer = Layer {
    begin: |table, state, holders| c_call!(balkwizu_turns_begin -> u32, const table, mut state, mut holders,),
    hand_in: |table, state, domain, words| c_call!(balkwizu_hand_in -> u32, const table, mut state, domain, const words,),
    turn: |table, state, holders, answer| c_call!(balkwizu_turn -> u32, mut table, mut state, mut holders, mut answer,),
};

/// Something that happens to a layer.
#[derive(Debug, Clone, PartialEq, Eq)]
pub enum Event {
    Begin,
    HandIn { domain: u32, words: Vec<u32> },
    Turn,
}

/// The words that an event is lent, or that it left of them. Handing in is lent the table
/// and the state, and the beginning the holders too.
#[derive(Debug, Clone, PartialEq, Eq)]
pub struct Lent {
    pub table: Vec<u32>,
    pub state: Vec<u32>,
    pub holders: Vec<u32>,
    pub answer: Vec<u32>,
}

/// What an event came to: its code, how many calls it served, and the words that it left.
#[derive(Debug, Clone, PartialEq, Eq)]
pub struct Left {
    pub code: u32,
    pub served: u32,
    pub words: Lent,
}

/// What a layer makes of an event in this process.
pub fn event_here(layer: &Layer, lent: &Lent, event: &Event) -> Result<Left, Failure> {
    match event {
        Event::Begin => begin_here(layer, lent),
        Event::HandIn { domain, words } => hand_in_here(layer, lent, *domain, words),
        Event::Turn => turn_here(layer, lent),
    }
}

fn begin_here(layer: &Layer, lent: &Lent) -> Result<Left, Failure> {
    let mut table = Fenced::new(&lent.table);
    let mut state = Fenced::new(&lent.state);
    let mut holders = Fenced::new(&lent.holders);
    // SAFETY: three parts of spaces of their own, which may all be written.
    let code = unsafe { (layer.begin)(table.lent(), state.lent(), holders.lent()) };
    table.unwritten(&lent.table, Forbidden::Table, Forbidden::AroundTable)?;
    let mut left = with_state(lent, code, state)?;
    left.words.holders = holders.words(Forbidden::AroundHolders)?;
    Ok(left)
}

fn hand_in_here(layer: &Layer, lent: &Lent, domain: u32, words: &[u32]) -> Result<Left, Failure> {
    let mut table = Fenced::new(&lent.table);
    let mut state = Fenced::new(&lent.state);
    let mut call = Fenced::new(words);
    // SAFETY: three parts of spaces of their own, which may all be written.
    let code = unsafe { (layer.hand_in)(table.lent(), state.lent(), domain, call.lent()) };
    table.unwritten(&lent.table, Forbidden::Table, Forbidden::AroundTable)?;
    call.unwritten(words, Forbidden::HandedIn, Forbidden::AroundWords)?;
    with_state(lent, code, state)
}

/// What is left where the state may be written and what else isn't said.
fn with_state(lent: &Lent, code: u32, state: Fenced) -> Result<Left, Failure> {
    let words = Lent {
        state: state.words(Forbidden::AroundState)?,
        ..lent.clone()
    };
    Ok(Left {
        code,
        served: 0,
        words,
    })
}

fn turn_here(layer: &Layer, lent: &Lent) -> Result<Left, Failure> {
    let mut table = Fenced::new(&lent.table);
    let mut state = Fenced::new(&lent.state);
    let mut holders = Fenced::new(&lent.holders);
    let mut answer = Fenced::new(&lent.answer);
    let answered = (layer.turn)(table.lent(), state.lent(), holders.lent(), answer.lent());
    Ok(Left {
        code: bits(answered, 15, 0),
        served: bits(answered, 31, 16),
        words: Lent {
            table: table.words(Forbidden::AroundTable)?,
            state: state.words(Forbidden::AroundState)?,
            holders: holders.words(Forbidden::AroundHolders)?,
            answer: answer.words(Forbidden::AroundAnswers)?,
        },
    })
}
