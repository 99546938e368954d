//! A small reader of Graphviz' language: the part that a drawing needs.

use std::collections::BTreeMap;

pub type Attributes = BTreeMap<String, String>;

/// A node or an edge with the attributes that hold for it.
#[derive(Debug, PartialEq, Eq)]
pub struct Drawn<Name> {
    /// The subgraph that it stands in.
    pub part: String,
    pub name: Name,
    pub attributes: Attributes,
}

#[derive(Debug, Default)]
pub struct Graph {
    pub nodes: Vec<Drawn<String>>,
    pub edges: Vec<Drawn<(String, String)>>,
    /// What is set by name alone, with the subgraph in front.
    pub settings: BTreeMap<(String, String), String>,
}

/// Names, numbers and quoted text are words; the rest stands for itself.
#[derive(Clone, Debug, PartialEq, Eq)]
enum Token {
    Word(String),
    Sign(&'static str),
}

const SIGNS: [&str; 8] = ["->", "{", "}", "[", "]", "=", ";", ","];

fn tokens(text: &str) -> Vec<Token> {
    let mut rest = text.trim_start();
    let mut tokens = Vec::new();
    while !rest.is_empty() {
        let (token, length) = token(rest);
        tokens.push(token);
        rest = rest[length..].trim_start();
    }
    tokens
}

fn token(text: &str) -> (Token, usize) {
    if let Some(sign) = SIGNS.into_iter().find(|sign| text.starts_with(sign)) {
        return (Token::Sign(sign), sign.len());
    }
    if let Some(quoted) = text.strip_prefix('"') {
        return quoted_word(quoted);
    }
    let part = |character: char| character.is_ascii_alphanumeric() || "_.".contains(character);
    let end = text
        .find(|character| !part(character))
        .unwrap_or(text.len());
    assert!(end > 0, "no word: {text}");
    (Token::Word(text[..end].to_string()), end)
}

/// Up to the next quote that has no backslash before it. Of the escapes only
/// that of a quote is undone: a label undoes the others.
fn quoted_word(text: &str) -> (Token, usize) {
    let mut word = String::new();
    let mut characters = text.char_indices();
    while let Some((at, character)) = characters.next() {
        match character {
            '"' => return (Token::Word(word), at + 2),
            '\\' => match characters.next().expect("something behind a backslash").1 {
                '"' => word.push('"'),
                other => word.extend(['\\', other]),
            },
            _ => word.push(character),
        }
    }
    panic!("no end of {text}");
}

/// The text that a label shows.
pub fn shown(label: &str) -> String {
    let mut text = String::new();
    let mut characters = label.chars();
    while let Some(character) = characters.next() {
        match character {
            '\\' => match characters.next().expect("an escape") {
                'n' => text.push('\n'),
                '\\' => text.push('\\'),
                other => panic!("escape {other} in {label}"),
            },
            _ => text.push(character),
        }
    }
    assert_eq!(text.matches('&').count(), text.matches("&amp;").count());
    text.replace("&amp;", "&")
}

/// Reads a drawing.
pub fn read(text: &str) -> Graph {
    let mut reader = Reader {
        tokens: tokens(text).into_iter().peekable(),
        graph: Graph::default(),
    };
    assert_eq!(reader.word(), "digraph");
    reader.word();
    reader.sign("{");
    reader.statements("", Attributes::new(), Attributes::new());
    assert_eq!(reader.tokens.next(), None);
    reader.graph
}

struct Reader {
    tokens: std::iter::Peekable<std::vec::IntoIter<Token>>,
    graph: Graph,
}

impl Reader {
    fn word(&mut self) -> String {
        match self.tokens.next() {
            Some(Token::Word(word)) => word,
            other => panic!("no word: {other:?}"),
        }
    }

    fn sign(&mut self, sign: &'static str) {
        assert_eq!(self.tokens.next(), Some(Token::Sign(sign)));
    }

    fn takes(&mut self, sign: &'static str) -> bool {
        self.tokens.next_if_eq(&Token::Sign(sign)).is_some()
    }

    /// Up to the brace that ends them; a semicolon ends each but a subgraph.
    fn statements(&mut self, part: &str, mut nodes: Attributes, mut edges: Attributes) {
        while !self.takes("}") {
            let word = self.word();
            if word == "subgraph" {
                let name = self.word();
                self.sign("{");
                self.statements(&name, nodes.clone(), edges.clone());
                continue;
            }
            match word.as_str() {
                "node" => nodes.extend(self.attributes()),
                "edge" => edges.extend(self.attributes()),
                _ => self.statement(part, word, &nodes, &edges),
            }
            self.sign(";");
        }
    }

    fn statement(&mut self, part: &str, name: String, nodes: &Attributes, edges: &Attributes) {
        let part = part.to_string();
        if self.takes("=") {
            let value = self.word();
            self.graph.settings.insert((part, name), value);
        } else if self.takes("->") {
            let name = (name, self.word());
            let attributes = self.all(edges);
            self.graph.edges.push(Drawn {
                part,
                name,
                attributes,
            });
        } else {
            let attributes = self.all(nodes);
            self.graph.nodes.push(Drawn {
                part,
                name,
                attributes,
            });
        }
    }

    /// Those that hold already and those given here.
    fn all(&mut self, known: &Attributes) -> Attributes {
        let mut all = known.clone();
        all.extend(self.attributes());
        all
    }

    fn attributes(&mut self) -> Attributes {
        let mut attributes = Attributes::new();
        if self.takes("[") {
            loop {
                let name = self.word();
                self.sign("=");
                attributes.insert(name, self.word());
                if self.takes("]") {
                    break;
                }
                self.sign(",");
            }
        }
        attributes
    }
}
