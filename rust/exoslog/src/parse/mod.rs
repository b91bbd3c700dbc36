//! Words to event records, and to a list of items.

mod items;
mod list;
mod module;
mod reader;
mod reply;
#[cfg(test)]
mod tests;

use crate::grammar::{Field, Form, FORMS};
use crate::mistakes::{Mistake, Place};
use crate::records::{put_record, LONGEST};
use crate::reply::REPLY;
use crate::without_mark;
use reader::{Behind, Reader, NOTHING};

pub use list::{begins_with_items, item_list};

/// The most bytes of a body.
const LONGEST_BODY: usize = LONGEST - 2;

/// The event records of a log in words, or every line's first mistake.
pub fn encode(text: &[u8]) -> Result<Vec<u8>, Vec<Mistake>> {
    let mut log = Vec::new();
    each_line(text, |reader| reader.record(&mut log))?;
    Ok(log)
}

/// Reads every line of a text, or gives every line's first mistake.
fn each_line(
    text: &[u8],
    mut read: impl FnMut(&mut Reader) -> Result<(), Mistake>,
) -> Result<(), Vec<Mistake>> {
    let mistakes: Vec<Mistake> = lines(text)
        .filter_map(|mut reader| read(&mut reader).err())
        .collect();
    if mistakes.is_empty() {
        Ok(())
    } else {
        Err(mistakes)
    }
}

/// The lines of a text.
fn lines(text: &[u8]) -> impl Iterator<Item = Reader<'_>> {
    let lines = without_mark(text).split(|&byte| byte == b'\n');
    (1..).zip(lines).map(|(row, line)| Reader::new(row, line))
}

impl Reader<'_> {
    /// Reads a record, or nothing but blanks and a comment.
    fn record(&mut self, log: &mut Vec<u8>) -> Result<(), Mistake> {
        match self.peek() {
            b"" => return Ok(()),
            b"raw" => {
                self.take(b"raw".len());
                let put = |byte, _| log.push(byte);
                self.hex("bytes as pairs of hex digits", NOTHING, put)?;
            }
            b"kind" => {
                self.take(b"kind".len());
                let kind = self.number("a kind", u16::MAX)?;
                let mut body = Vec::new();
                self.field(Field::Data, &mut body)?;
                put_record(log, kind, &body);
            }
            b"reply" => {
                self.take(b"reply".len());
                put_record(log, REPLY, &self.reply()?);
            }
            _ => {
                let form = self.form()?;
                let mut body = Vec::new();
                for field in form.fields {
                    self.field(*field, &mut body)?;
                }
                put_record(log, form.kind, &body);
            }
        }
        self.end()
    }

    /// Reads the words of a form, one by one.
    fn form(&mut self) -> Result<&'static Form, Mistake> {
        let mut forms: Vec<&Form> = FORMS.iter().collect();
        let mut others = vec!["reply", "kind", "raw"];
        let mut place = 0;
        loop {
            let word = self.peek();
            let nth = |form: &&Form| form.words.split(' ').nth(place);
            let mut known: Vec<&str> = forms.iter().filter_map(nth).collect();
            known.append(&mut others);
            forms.retain(|form| nth(form).is_some_and(|known| known.as_bytes() == word));
            place += 1;
            match forms[..] {
                [] => return Err(self.mistake(one_of(&known))),
                [form] if form.words.split(' ').count() == place => {
                    self.take(word.len());
                    return Ok(form);
                }
                _ => self.take(word.len()),
            }
        }
    }

    /// Reads a field and puts it behind the body, which stays within 4,094
    /// bytes.
    fn field(&mut self, field: Field, body: &mut Vec<u8>) -> Result<(), Mistake> {
        match field {
            Field::Byte(what) => body.push(self.byte(what)?),
            Field::Word(what) => body.extend(self.number(what, u16::MAX)?.to_le_bytes()),
            Field::Flags => body.push(self.flags()?),
            Field::Caller => body.push(self.caller()?),
            Field::List => self.rest(body, "segment numbers", Self::list)?,
            Field::Name => self.rest(body, "bytes of name", Self::name)?,
            Field::Data => self.rest(body, "bytes of data", Self::data)?,
            Field::Stream => self.rest(body, "bytes of module", Self::module)?,
        }
        Ok(())
    }

    /// Reads the rest of a body, which has an end.
    fn rest(
        &mut self,
        body: &mut Vec<u8>,
        what: &str,
        read: fn(&mut Self) -> Result<Vec<u8>, Mistake>,
    ) -> Result<(), Mistake> {
        let start = self.place();
        let bytes = read(self)?;
        let most = LONGEST_BODY - body.len();
        if bytes.len() > most {
            let expected = format!("at most {most} {what}");
            return Err(self.mistake_since(start, expected, bytes.len().to_string()));
        }
        body.extend(bytes);
        Ok(())
    }

    /// Reads `bits` and the numbers of bits, or the value of the flags.
    fn flags(&mut self) -> Result<u8, Mistake> {
        if self.peek() != b"bits" {
            return self.byte("bits, or flags");
        }
        self.take(b"bits".len());
        let mut flags = 0;
        loop {
            flags |= 1 << self.number("a bit", 7)?;
            if self.is_at_end() {
                return Ok(flags);
            }
        }
    }

    fn caller(&mut self) -> Result<u8, Mistake> {
        let word = self.peek();
        let caller = match word {
            b"user" => 0,
            b"device" => 1,
            _ => return self.byte("user, device or a caller"),
        };
        self.take(word.len());
        Ok(caller)
    }

    fn list(&mut self) -> Result<Vec<u8>, Mistake> {
        let mut list = Vec::new();
        while !self.is_at_end() {
            list.push(self.byte("a segment number")?);
        }
        Ok(list)
    }

    fn name(&mut self) -> Result<Vec<u8>, Mistake> {
        if self.peek().first() != Some(&b'"') {
            return Err(self.mistake("a name in double quotes".to_string()));
        }
        let mut name = Vec::new();
        self.string(|byte, _| name.push(byte))?;
        Ok(name)
    }

    fn data(&mut self) -> Result<Vec<u8>, Mistake> {
        let mut data = Vec::new();
        self.data_before(NOTHING, |byte, _| data.push(byte))?;
        Ok(data)
    }

    /// Reads data up to what may stand behind it, and hands each byte on with its
    /// place.
    fn data_before(&mut self, behind: Behind, put: impl FnMut(u8, Place)) -> Result<(), Mistake> {
        if self.peek().first() == Some(&b'"') {
            self.string(put)
        } else {
            let what = "data as pairs of hex digits or in double quotes";
            self.hex(what, behind, put)
        }
    }
}

/// The words, each once, in their order.
fn one_of(words: &[&str]) -> String {
    let mut once: Vec<&str> = Vec::new();
    for word in words {
        if !once.contains(word) {
            once.push(word);
        }
    }
    match once.split_last() {
        Some((last, [])) => last.to_string(),
        Some((last, rest)) => format!("{} or {last}", rest.join(", ")),
        None => String::new(),
    }
}
