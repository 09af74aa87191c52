//! The brackets and words of a line (document 02, W-205).

/// A bracket, or a word: a run of bytes other than spaces, brackets, `;` and byte 10.
#[derive(Clone, Copy, Debug, PartialEq, Eq)]
pub enum Piece<'a> {
    Open,
    Close,
    Word(&'a [u8]),
}

/// What is left of a line without its comment, which goes from the first `;` to the line's end.
fn without_comment(line: &[u8]) -> &[u8] {
    let comment = line.iter().position(|byte| *byte == b';');
    &line[..comment.unwrap_or(line.len())]
}

/// The pieces of a line without its byte 10. Spaces only part words; a blank line has no piece.
pub fn pieces(line: &[u8]) -> Vec<Piece<'_>> {
    let line = without_comment(line);
    let mut found = Vec::new();
    let mut at = 0;
    while at < line.len() {
        let start = at;
        at += 1;
        match line[start] {
            b'(' => found.push(Piece::Open),
            b')' => found.push(Piece::Close),
            b' ' => {}
            _ => {
                while at < line.len() && !matches!(line[at], b'(' | b')' | b' ') {
                    at += 1;
                }
                found.push(Piece::Word(&line[start..at]));
            }
        }
    }
    found
}

/// The text that the same brackets and words give with document 01's spacing: a form a line, one
/// space between items, nothing else. A text is strict when it is this one.
pub fn strict(text: &[u8]) -> Vec<u8> {
    let mut strict = Vec::new();
    for line in text.split(|byte| *byte == b'\n') {
        let pieces = pieces(line);
        let mut before = Piece::Open;
        for piece in &pieces {
            if before != Piece::Open && *piece != Piece::Close {
                strict.push(b' ');
            }
            match piece {
                Piece::Open => strict.push(b'('),
                Piece::Close => strict.push(b')'),
                Piece::Word(word) => strict.extend_from_slice(word),
            }
            before = *piece;
        }
        if !pieces.is_empty() {
            strict.push(b'\n');
        }
    }
    strict
}
