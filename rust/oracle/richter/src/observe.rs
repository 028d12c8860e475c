//! What a context holds. Its fields are private and richter's files stay as they are, so they are read from its `Debug` text.

use std::fmt::Debug;

#[derive(Clone, Debug, Default, PartialEq)]
pub struct Observed {
    pub pc: usize,
    pub function: usize,
    /// Recorded position and function of each frame, the lowest first.
    pub frames: Vec<(usize, usize)>,
    pub local_stack: Vec<u32>,
}

fn numbers(text: &str) -> Vec<usize> {
    text.split(|c: char| !c.is_ascii_digit())
        .filter(|word| !word.is_empty())
        .map(|word| word.parse().unwrap())
        .collect()
}

/// Reads the fields after `functions`. They hold numbers alone, so the last `, pc: ` of the text is the field's.
pub fn observe<C: Debug>(context: &C) -> Observed {
    let text = format!("{:?}", context);
    let fields = &text[text.rfind(", pc: ").unwrap()..];
    let split = fields.find("local_stack: ").unwrap();
    let (head, stack) = fields.split_at(split);
    let head = numbers(head);
    let bytes = numbers(stack);
    Observed {
        pc: head[0],
        function: head[1],
        frames: head[2..].chunks(2).map(|f| (f[0], f[1])).collect(),
        local_stack: bytes
            .chunks(4)
            .map(|b| u32::from_le_bytes([b[0] as u8, b[1] as u8, b[2] as u8, b[3] as u8]))
            .collect(),
    }
}
