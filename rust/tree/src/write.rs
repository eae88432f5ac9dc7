//! A readable text becomes records and names.
//!
//! A line is a node: its words, a name or number, below it and further in its children. Counts, and what names and
//! children add to a variant, are worked out. A line that begins with a number is a raw record: kind, variant, count,
//! a, b, where a quoted text may stand for a and b, and zeros at the end may be left out. Nothing of a raw record is
//! worked out or checked, so that damaged trees can be written too.

use crate::line::{lines, quote, Fault, Line, Token};
use crate::record::Record;
use crate::table::{form_called, Form, Holds, Part};
use std::collections::HashMap;

/// A node: a record and the line that it comes from.
#[derive(Debug)]
pub struct Node {
    /// The line's number.
    pub line: usize,
    /// The line itself.
    pub words: String,
    /// The record.
    pub record: Record,
}

/// What a text says.
#[derive(Debug, Default)]
pub struct Tree {
    /// The nodes, in the order of their records.
    pub nodes: Vec<Node>,
    /// The names.
    pub names: Vec<u8>,
    /// Bytes behind the last record.
    pub rest: Vec<u8>,
}

impl Tree {
    /// The bytes of tree.rec.
    pub fn tree_bytes(&self) -> Vec<u8> {
        let records = self.nodes.iter().flat_map(|node| node.record.to_bytes());
        records.chain(self.rest.iter().copied()).collect()
    }
}

/// Reads a text.
pub fn tree_of(text: &str) -> Result<Tree, Fault> {
    let mut writer = Writer::default();
    for line in lines(text)? {
        let number = line.number;
        writer.add(line).map_err(|message| Fault { line: number, message })?;
    }
    writer.work_out()?;
    Ok(writer.tree)
}

/// What has been read so far.
#[derive(Default)]
struct Writer {
    tree: Tree,
    /// Where each name stands.
    places: HashMap<Vec<u8>, u32>,
    /// The form of each node; none for a raw record.
    forms: Vec<Option<&'static Form>>,
    /// The children of each node.
    children: Vec<Vec<usize>>,
    /// The nodes above the next line, each with its indent.
    above: Vec<(usize, usize)>,
}

impl Writer {
    /// Reads a line.
    fn add(&mut self, line: Line) -> Result<(), String> {
        match &line.tokens[..] {
            [Token::Word(word), Token::Quoted(bytes)] if word == "Names" => return self.add_names(bytes),
            [Token::Word(word), Token::Quoted(bytes)] if word == "Bytes" => {
                self.tree.rest.extend(bytes);
                return Ok(());
            }
            _ => {}
        }
        if !self.tree.rest.is_empty() {
            return Err("no record may follow Bytes".into());
        }
        let (form, record) = match line.tokens.first() {
            Some(Token::Number(_)) => (None, self.raw(&line.tokens)?),
            _ => self.worded(&line.tokens)?,
        };
        self.place(line.indent)?;
        self.tree.nodes.push(Node { line: line.number, words: line.words, record });
        self.forms.push(form);
        self.children.push(Vec::new());
        Ok(())
    }

    /// The names that stand first.
    fn add_names(&mut self, bytes: &[u8]) -> Result<(), String> {
        if !self.tree.nodes.is_empty() || !self.tree.names.is_empty() {
            return Err("Names is the first line, where it stands at all".into());
        }
        self.tree.names.extend(bytes);
        Ok(())
    }

    /// Puts the next node below the node that its indent says.
    fn place(&mut self, indent: usize) -> Result<(), String> {
        let mut sibling = indent;
        while let Some((_, above)) = self.above.pop_if(|(_, above)| *above >= indent) {
            sibling = above;
        }
        if sibling != indent {
            return Err(format!("{sibling} spaces are expected, as at its siblings, not {indent}"));
        }
        let index = self.tree.nodes.len();
        if let Some(siblings) = self.above.last().and_then(|(parent, _)| self.children.get_mut(*parent)) {
            siblings.push(index);
        }
        self.above.push((index, indent));
        Ok(())
    }

    /// The record of a line that begins with a number.
    fn raw(&mut self, tokens: &[Token]) -> Result<Record, String> {
        let mut fields = Vec::new();
        for token in tokens {
            match token {
                Token::Number(number) => fields.push(*number),
                Token::Quoted(bytes) if fields.len() <= 3 => {
                    fields.resize(3, 0);
                    let (a, b) = self.name(bytes, &[])?;
                    fields.extend([i64::from(a), i64::from(b)]);
                }
                _ => return Err("a raw record is kind, variant, count, a, b, or a quoted text for a and b".into()),
            }
        }
        if fields.len() > 5 {
            return Err("a record has five fields: kind, variant, count, a, b".into());
        }
        let field = |index: usize| fields.get(index).copied().unwrap_or(0);
        Ok(Record {
            kind: within(field(0))?,
            variant: within(field(1))?,
            count: within(field(2))?,
            a: within(field(3))?,
            b: within(field(4))?,
        })
    }

    /// The form and record of a line that begins with a word. What children say is not in it yet.
    fn worded(&mut self, tokens: &[Token]) -> Result<(Option<&'static Form>, Record), String> {
        let word = |token: &Token| if let Token::Word(word) = token { Some(word.clone()) } else { None };
        let words: Vec<String> = tokens.iter().map_while(word).collect();
        let head = words.join(" ");
        let (form, variant) = form_called(&head).ok_or_else(|| format!("no node has the words \"{head}\""))?;
        let mut record = Record { kind: form.kind, variant, ..Record::default() };
        match (form.holds, tokens.get(words.len()..).unwrap_or_default()) {
            (Holds::Nothing | Holds::PerhapsName(_), []) => {}
            (Holds::Signed, [Token::Number(number)]) => record.a = within::<i32>(*number)?.cast_unsigned(),
            (Holds::Unsigned, [Token::Number(number)]) => record.a = within(*number)?,
            (Holds::Name | Holds::Float, [Token::Quoted(bytes), at @ ..]) => {
                (record.a, record.b) = self.name(bytes, at)?
            }
            (Holds::PerhapsName(flag), [Token::Quoted(bytes), at @ ..]) => {
                record.variant += flag;
                (record.a, record.b) = self.name(bytes, at)?;
            }
            _ => return Err(format!("behind \"{head}\" {} is expected", held(form.holds))),
        }
        Ok((Some(form), record))
    }

    /// Offset and length of a name: where `at` and a number follow it, there; otherwise where it was first used, or
    /// behind the names.
    fn name(&mut self, bytes: &[u8], behind: &[Token]) -> Result<(u32, u32), String> {
        let length = within(i64::try_from(bytes.len()).unwrap_or(i64::MAX))?;
        let offset = match behind {
            [] => match self.places.get(bytes) {
                Some(offset) => *offset,
                None => self.new_name(bytes)?,
            },
            [Token::Word(at), Token::Number(offset)] if at == "at" => within(*offset)?,
            _ => return Err("nothing but \"at\" and a number may follow a name".into()),
        };
        match (Record { a: offset, b: length, ..Record::default() }).text(&self.tree.names) {
            Some(text) if text == bytes => Ok((offset, length)),
            _ => Err(format!("the names don't have {} at {offset}", quote(bytes))),
        }
    }

    /// Puts a name behind the names; answers its offset.
    fn new_name(&mut self, bytes: &[u8]) -> Result<u32, String> {
        let offset = u32::try_from(self.tree.names.len()).map_err(|_| "there are too many names")?;
        self.tree.names.extend(bytes);
        self.places.insert(bytes.into(), offset);
        Ok(offset)
    }

    /// Counts, and what children add to variants.
    fn work_out(&mut self) -> Result<(), Fault> {
        for (index, (form, children)) in self.forms.iter().zip(&self.children).enumerate() {
            let Some(form) = form else { continue };
            let kind = |child: &usize| self.tree.nodes.get(*child).map(|node| (node.record.kind, node.record.variant));
            let kinds: Vec<(u8, u8)> = children.iter().filter_map(kind).collect();
            let fitted = fit(form.parts, &kinds);
            let (flags, count) = fitted.map_err(|child| self.misfit(form, index, children.get(child).copied()))?;
            let Some(node) = self.tree.nodes.get_mut(index) else { continue };
            node.record.variant += flags;
            node.record.count = count;
        }
        Ok(())
    }

    /// The fault of a child that may not stand below a node, or of one that is missing.
    fn misfit(&self, form: &Form, parent: usize, child: Option<usize>) -> Fault {
        let line = |index: usize| self.tree.nodes.get(index).map_or(0, |node| node.line);
        let what = if child.is_some() { "this may not stand here" } else { "a child is missing" };
        let message = format!(
            "{what}: {} in line {} has {} (a raw record may have any children)",
            form.label,
            line(parent),
            form.parts_called()
        );
        Fault { line: line(child.unwrap_or(parent)), message }
    }
}

/// What the children add to the variant, and the count; where they don't fit the parts, the first that doesn't, or
/// their number where one is missing.
fn fit(parts: &[Part], children: &[(u8, u8)]) -> Result<(u8, u16), usize> {
    let (mut flags, mut count, mut at) = (0, 0, 0);
    for part in parts {
        let (class, least, most) = match *part {
            Part::One(class) => (class, 1, 1),
            Part::Perhaps(_, class) => (class, 0, 1),
            Part::Any(class) => (class, 0, usize::from(u16::MAX)),
            Part::AtLeastOne(class) => (class, 1, usize::from(u16::MAX)),
        };
        let left = children.get(at..).unwrap_or_default();
        let found = left.iter().take(most).take_while(|(kind, variant)| class.takes(*kind, *variant)).count();
        at += found;
        match *part {
            _ if found < least => return Err(at),
            Part::Perhaps(flag, _) if found == 1 => flags |= flag,
            Part::Any(_) | Part::AtLeastOne(_) => count = u16::try_from(found).map_err(|_| at)?,
            _ => {}
        }
    }
    if at == children.len() {
        Ok((flags, count))
    } else {
        Err(at)
    }
}

/// A number as a field's.
fn within<T: TryFrom<i64>>(number: i64) -> Result<T, String> {
    T::try_from(number).map_err(|_| format!("{number} does not fit its field"))
}

/// What is held, in words.
fn held(holds: Holds) -> &'static str {
    match holds {
        Holds::Nothing => "nothing",
        Holds::Signed | Holds::Unsigned => "a number",
        Holds::Name => "a quoted name",
        Holds::PerhapsName(_) => "a quoted name or nothing",
        Holds::Float => "a quoted text of a float",
    }
}

#[cfg(test)]
mod tests {
    use super::*;

    fn fields(text: &str) -> Vec<[u32; 5]> {
        let fields = |node: &Node| {
            let Record { kind, variant, count, a, b } = node.record;
            [kind.into(), variant.into(), count.into(), a, b]
        };
        tree_of(text).expect("it is well-formed").nodes.iter().map(fields).collect()
    }

    /// Document 01's `int x;`.
    #[test]
    fn int_x() {
        let text = "Unit\n  Declaration list\n    Declarators\n      First declarator \"x\"\n        Full type\n\
                    \x20         Type\n            Keyword int\n";
        let expected = [
            [80, 0, 1, 0, 0],
            [47, 1, 0, 0, 0],
            [42, 0, 0, 0, 0],
            [43, 1, 0, 0, 1],
            [31, 0, 0, 0, 0],
            [20, 0, 0, 0, 0],
            [21, 2, 0, 0, 0],
        ];
        assert_eq!(fields(text), expected);
    }

    #[test]
    fn raw_records_are_taken_as_they_are() {
        assert_eq!(
            fields("99 255 65535 4294967295 1\n 1 \"x\"\n 1 0 7 \"x\""),
            [[99, 255, 65535, u32::MAX, 1], [1, 0, 0, 0, 1], [1, 0, 7, 0, 1]]
        );
        assert_eq!(fields("PostInc\n  2 0 0 5"), [[14, 0, 0, 0, 0], [2, 0, 0, 5, 0]]);
    }

    #[test]
    fn constants_have_their_bits() {
        assert_eq!(fields("IntConst -2147483648"), [[2, 0, 0, 1 << 31, 0]]);
        assert_eq!(fields("UIntConst 4294967295"), [[3, 0, 0, u32::MAX, 0]]);
    }

    #[test]
    fn names_stand_once() {
        let tree = tree_of("Binary Sub\n Variable \"n\"\n Unary Dec\n  Dot \"n\"\n   Variable \"k\"")
            .expect("it is well-formed");
        assert_eq!(tree.names, b"nk");
    }

    #[test]
    fn children_must_fit() {
        for (line, text) in [
            (1, "Binary Add\n  Variable \"a\""),
            (2, "Comma\n  PostInc\n  Variable \"a\""),
            (1, "Array"),
            (2, "Variable \"a\"\n  Variable \"b\""),
            (3, "Unit\n  Declaration invariant \"x\"\n  Variable \"y\""),
            (3, "FunCall\n    Variable \"f\"\n  Variable \"a\""),
            (2, "Declaration precision\n  Storage const\n  Type\n    Keyword int"),
        ] {
            assert_eq!(tree_of(text).err().map(|fault| fault.line), Some(line), "{text}");
        }
    }

    #[test]
    fn what_is_held_must_fit() {
        for text in [
            "Variable",
            "Variable 1",
            "IntConst",
            "IntConst 2147483648",
            "UIntConst -1",
            "Keyword",
            "Keyword vec5",
            "Unit \"x\"",
            "Nonsense",
            "256",
            "1 0 65536",
            "1 2 3 4 5 6",
            "1 0 0 0 \"x\"",
            "Names \"x\"\nVariable \"y\" at 0",
            "Unit\nNames \"x\"",
            "Bytes \"x\"\nUnit",
        ] {
            assert!(tree_of(text).is_err(), "{text}");
        }
    }
}
