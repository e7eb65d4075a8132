//! A case: a program, a list of lines, and where the list is cut into pieces.

/// A program or a piece has at most this many bytes, and so has a row that is written.
pub const LONGEST_PIECE: usize = 4096;

#[derive(Clone, Debug, Default, PartialEq, Eq)]
pub struct Case {
    pub program: Vec<u8>,
    pub list: Vec<u8>,
    /// Places in the list at which a piece ends, rising. Two equal ones have an empty piece
    /// between them. What stands behind the last is one more piece, if it has bytes.
    pub cuts: Vec<usize>,
}

impl Case {
    /// The pieces of the list; those that would be too long are cut further.
    pub fn pieces(&self) -> Vec<&[u8]> {
        let mut pieces = Vec::new();
        let mut begin = 0;
        for cut in &self.cuts {
            let end = (*cut).clamp(begin, self.list.len());
            push_pieces(&self.list[begin..end], &mut pieces);
            begin = end;
        }
        if begin < self.list.len() {
            push_pieces(&self.list[begin..], &mut pieces);
        }
        pieces
    }
}

fn push_pieces<'a>(bytes: &'a [u8], pieces: &mut Vec<&'a [u8]>) {
    if bytes.is_empty() {
        pieces.push(bytes);
    }
    pieces.extend(bytes.chunks(LONGEST_PIECE));
}

/// The lines that end in byte 10, and what stands behind the last of these bytes.
pub fn cut_into_lines(list: &[u8]) -> (Vec<&[u8]>, &[u8]) {
    let mut lines: Vec<&[u8]> = list.split(|byte| *byte == b'\n').collect();
    let rest = lines.pop().unwrap_or(&[]);
    (lines, rest)
}

#[cfg(test)]
mod tests {
    use super::*;

    #[test]
    fn pieces_of_a_list() {
        let mut case = Case { program: Vec::new(), list: b"abcdef".to_vec(), cuts: vec![2, 2, 5] };
        assert_eq!(case.pieces(), [&b"ab"[..], b"", b"cde", b"f"]);
        case.list.truncate(1);
        assert_eq!(case.pieces(), [&b"a"[..], b"", b""]);
        case.list.clear();
        case.cuts.clear();
        assert!(case.pieces().is_empty());
        case.list = vec![b'x'; 2 * LONGEST_PIECE + 1];
        assert_eq!(case.pieces().len(), 3);
    }

    #[test]
    fn lines_of_a_list() {
        assert_eq!(cut_into_lines(b"a\n\nb"), (vec![&b"a"[..], b""], &b"b"[..]));
        assert_eq!(cut_into_lines(b"a\n"), (vec![&b"a"[..]], &b""[..]));
        assert_eq!(cut_into_lines(b""), (vec![], &b""[..]));
    }
}
