//! Expressions as a tree, and how they are read (document 01, "Bytes to expressions").

use crate::bytecode::Bytecode;
use std::mem;

const STREAM_LIMIT: usize = 65_536;
/// So many may be open, or one inside another.
pub const FORMS_LIMIT: usize = 64;
const ARRAY_MARKS_LIMIT: usize = 8;

/// "A refusal gives number and place."
#[derive(Debug)]
pub struct Refusal {
    pub number: u8,
    pub place: usize,
}

pub fn refuse<T>(number: u8, place: usize) -> Result<T, Refusal> {
    Err(Refusal { number, place })
}

pub enum Content<'a> {
    Nil,
    Form(Vec<Expression<'a>>),
    Array(&'a [u8]),
    Integer(u8),
    Reference { marker: u16, name: u8 },
}

/// An expression with its place in the stream; `end` is one past its last byte.
pub struct Expression<'a> {
    pub start: usize,
    pub end: usize,
    /// Forms one inside another.
    pub depth: usize,
    pub content: Content<'a>,
    /// Of a form that has been transformed; its elements have gone into the result.
    pub bytecode: Option<Box<Bytecode<'a>>>,
}

impl<'a> Expression<'a> {
    pub fn kind(&self) -> usize {
        match self.content {
            Content::Nil => 0,
            Content::Form(_) => 1,
            Content::Array(_) => 2,
            Content::Integer(_) => 3,
            Content::Reference { .. } => 4,
        }
    }

    /// The elements of a form; an atom has none.
    pub fn elements(&self) -> &[Expression<'a>] {
        match &self.content {
            Content::Form(elements) => elements,
            _ => &[],
        }
    }

    pub fn elements_mut(&mut self) -> &mut [Expression<'a>] {
        match &mut self.content {
            Content::Form(elements) => elements,
            _ => &mut [],
        }
    }

    /// Leaves a form without elements.
    pub fn take_elements(&mut self) -> Vec<Expression<'a>> {
        match &mut self.content {
            Content::Form(elements) => mem::take(elements),
            _ => Vec::new(),
        }
    }

    /// A form that stands nowhere in the stream, with the place that it is to have.
    pub fn form(place: usize, elements: Vec<Expression<'a>>) -> Expression<'a> {
        Expression {
            start: place,
            end: elements.last().map_or(place, |last| last.end),
            depth: 1 + deepest(&elements),
            content: Content::Form(elements),
            bytecode: None,
        }
    }

    pub fn moved_to(self, place: usize) -> Expression<'a> {
        Expression {
            start: place,
            ..self
        }
    }
}

fn deepest(list: &[Expression]) -> usize {
    list.iter().map(|each| each.depth).max().unwrap_or(0)
}

/// Reads a whole stream, with so many rows available.
pub fn read(stream: &[u8], rows: u64) -> Result<Vec<Expression<'_>>, Refusal> {
    if stream.len() > STREAM_LIMIT {
        return refuse(1, 0);
    }
    let mut reader = Reader {
        stream,
        at: 0,
        top_level: 0,
        open: 0,
        rows_left: rows,
    };
    let mut list = Vec::new();
    while reader.at < stream.len() {
        reader.top_level = reader.at;
        list.push(reader.expression()?);
    }
    Ok(list)
}

/// The table: "kind, start, end (one past), and the row number of the first row
/// starting at or after that end".
pub fn rows(list: &[Expression]) -> Vec<[usize; 4]> {
    let mut rows = Vec::new();
    add_rows(list, &mut rows);
    rows
}

fn add_rows(list: &[Expression], rows: &mut Vec<[usize; 4]>) {
    for expression in list {
        let row = rows.len();
        rows.push([expression.kind(), expression.start, expression.end, 0]);
        add_rows(expression.elements(), rows);
        rows[row][3] = rows.len();
    }
}

struct Reader<'a> {
    stream: &'a [u8],
    at: usize,
    /// Where the top-level expression begins that is being read.
    top_level: usize,
    open: usize,
    rows_left: u64,
}

impl<'a> Reader<'a> {
    fn expression(&mut self) -> Result<Expression<'a>, Refusal> {
        let start = self.at;
        let content = self.content(start)?;
        let depth = match &content {
            Content::Form(elements) => 1 + deepest(elements),
            _ => 0,
        };
        Ok(Expression {
            start,
            end: self.at,
            depth,
            content,
            bytecode: None,
        })
    }

    /// "In reading one atom: 4 or 3, 6, 5, 2 as its bytes come, then 7, then 8."
    fn content(&mut self, start: usize) -> Result<Content<'a>, Refusal> {
        let content = match self.byte()? {
            0x00 => Content::Nil,
            0x01 => return self.form(start),
            // A form takes its own 02, so this one is at top level.
            0x02 => return refuse(3, start),
            0x03 => Content::Array(self.generic_array()?),
            0x04..=0x0F => return refuse(4, start),
            first @ 0x10..=0x7F => self.reference(first, start)?,
            first @ 0x80..=0xBF => Content::Integer(first & 0x3F),
            first => Content::Array(self.bytes(u64::from(first & 0x3F))?),
        };
        self.take_row(start)?;
        Ok(content)
    }

    /// "A form's opening: 6, 8."
    fn form(&mut self, start: usize) -> Result<Content<'a>, Refusal> {
        if self.open == FORMS_LIMIT {
            return refuse(6, start);
        }
        self.take_row(start)?;
        self.open += 1;
        let mut elements = Vec::new();
        while self.peek()? != 0x02 {
            elements.push(self.expression()?);
        }
        self.at += 1;
        self.open -= 1;
        Ok(Content::Form(elements))
    }

    /// "After 7F, bytes are read up to the first that isn't FF; 7F (127) and all of
    /// these are added up to give the marker, and the name byte follows."
    fn reference(&mut self, first: u8, start: usize) -> Result<Content<'a>, Refusal> {
        let mut marker = u64::from(first);
        if first == 0x7F {
            loop {
                let byte = self.byte()?;
                marker += u64::from(byte);
                if byte != 0xFF {
                    break;
                }
            }
        }
        let name = self.byte()?;
        match u16::try_from(marker) {
            Ok(marker) => Ok(Content::Reference { marker, name }),
            Err(_) => refuse(7, start),
        }
    }

    /// The rest of an array whose first 03 has been read. "A generic array may itself
    /// be the length of another": all their 03s come first, the innermost length next.
    fn generic_array(&mut self) -> Result<&'a [u8], Refusal> {
        let mut marks = 1;
        let innermost_length = loop {
            let place = self.at;
            match self.byte()? {
                0x03 if marks == ARRAY_MARKS_LIMIT => return refuse(6, place),
                0x03 => marks += 1,
                0x00..=0x7F => return refuse(5, place),
                byte @ 0x80..=0xBF => break u64::from(byte & 0x3F),
                byte => break natural(self.bytes(u64::from(byte & 0x3F))?),
            }
        };
        let mut bytes = self.bytes(innermost_length)?;
        for _ in 1..marks {
            bytes = self.bytes(natural(bytes))?;
        }
        Ok(bytes)
    }

    fn take_row(&mut self, place: usize) -> Result<(), Refusal> {
        if self.rows_left == 0 {
            return refuse(8, place);
        }
        self.rows_left -= 1;
        Ok(())
    }

    fn peek(&self) -> Result<u8, Refusal> {
        match self.stream.get(self.at) {
            Some(byte) => Ok(*byte),
            None => self.unfinished(),
        }
    }

    fn byte(&mut self) -> Result<u8, Refusal> {
        let byte = self.peek()?;
        self.at += 1;
        Ok(byte)
    }

    fn bytes(&mut self, count: u64) -> Result<&'a [u8], Refusal> {
        let rest = &self.stream[self.at..];
        if count > rest.len() as u64 {
            return self.unfinished();
        }
        self.at += count as usize;
        Ok(&rest[..count as usize])
    }

    /// "Refusal 2 should give the first byte of the unfinished top-level expression"
    /// (document 02, §4).
    fn unfinished<T>(&self) -> Result<T, Refusal> {
        refuse(2, self.top_level)
    }
}

/// "A big-endian natural number (no bytes: 0; leading zeros allowed)." A number too
/// large for 64 bits stays at the largest, which runs past the end of any stream.
fn natural(bytes: &[u8]) -> u64 {
    bytes.iter().fold(0, |number: u64, byte| {
        number.saturating_mul(256).saturating_add(u64::from(*byte))
    })
}
