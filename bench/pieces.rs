//! Parts of a file's pieces. Positions and lengths are in bytes.
use crate::format::Piece;
use std::collections::BTreeMap;
use std::ops::Range;

/// The pieces that meet a range, of a file's by position.
pub fn meeting(pieces: &BTreeMap<u64, Piece>, range: &Range<u64>) -> Vec<Piece> {
    let before = pieces.range(..range.start).next_back().map(|(_, piece)| *piece);
    let within = pieces.range(range.clone()).map(|(_, piece)| *piece);
    before
        .into_iter()
        .filter(|piece| range.start < piece.end())
        .chain(within)
        .collect()
}

/// The part of a piece in a range that it meets.
fn part(piece: &Piece, range: &Range<u64>) -> Piece {
    let position = range.start.max(piece.position);
    Piece {
        position,
        len: range.end.min(piece.end()) - position,
        offset: piece.offset + position - piece.position,
        ..*piece
    }
}

/// What pieces have in a range.
pub fn within(pieces: &BTreeMap<u64, Piece>, range: &Range<u64>) -> Vec<Piece> {
    let met = meeting(pieces, range);
    met.iter().map(|piece| part(piece, range)).collect()
}

/// What rests in front of a range, and behind it, of the pieces that meet it.
pub fn rests(met: &[Piece], range: &Range<u64>) -> [Option<Piece>; 2] {
    let first = met.first().filter(|piece| piece.position < range.start);
    let last = met.last().filter(|piece| range.end < piece.end());
    [
        first.map(|piece| part(piece, &(0..range.start))),
        last.map(|piece| part(piece, &(range.end..u64::MAX))),
    ]
}
