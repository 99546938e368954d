//! The page of `rights`.

use super::{Rights, User};
use crate::arguments::Settings;
use crate::list::rows;
use crate::monitor::Roles;
use crate::names::Kind;
use crate::sessions::Session;
use crate::threads;

pub fn written(rights: &Rights, settings: &Settings) -> String {
    let sessions = threads::map(&rights.sessions.all, |session| {
        of_session(session, settings)
    });
    let users: Vec<String> = rights
        .users
        .iter()
        .map(|user| of_user(user, settings))
        .collect();
    let nobody = of_nobody(rights, settings);
    let mut pieces: Vec<&str> = Vec::new();
    for (user, text) in rights.users.iter().zip(&users) {
        let places = rights.sessions.places(user.number).iter();
        pieces.push(text);
        pieces.extend(places.map(|&place| sessions[place].as_str()));
        pieces.push("\n");
    }
    pieces.push(&nobody);
    pieces.concat()
}

fn of_user(user: &User, settings: &Settings) -> String {
    let mut block = Block::new(format!("user {:>5}", user.number), settings);
    block.name(Kind::User, user.number);
    let clearance = settings.names.number(Kind::Label, user.clearance);
    block.row("clearance", &clearance);
    block.roles("assigned", user.assigned);
    block.roles("inherited", user.inherited);
    block.text
}

fn of_session(session: &Session, settings: &Settings) -> String {
    let mut block = Block::new(format!("label{:>5}", session.label), settings);
    block.name(Kind::Label, session.label);
    block.roles("takes", session.takes);
    block.list("reads", &session.reads.numbers(), Kind::Card);
    block.list("writes", &session.writes.numbers(), Kind::Card);
    block.text
}

fn of_nobody(rights: &Rights, settings: &Settings) -> String {
    let mut block = Block::new("no user".to_string(), settings);
    block.list("takes", &rights.untaken, Kind::Role);
    block.list("reads", &rights.unread, Kind::Card);
    block.text
}

/// Rows under a head, which stands before the first.
struct Block<'a> {
    text: String,
    head: String,
    settings: &'a Settings,
}

impl Block<'_> {
    fn new(head: String, settings: &Settings) -> Block<'_> {
        Block {
            text: String::new(),
            head,
            settings,
        }
    }

    fn row(&mut self, word: &str, row: &str) {
        put(&mut self.text, &self.head, 12);
        put(&mut self.text, word, 11);
        self.text += row;
        self.text.push('\n');
        self.head.clear();
    }

    /// The name of what the block is about, where it has one.
    fn name(&mut self, kind: Kind, number: u64) {
        let settings = self.settings;
        if let Some(name) = settings.names.of(kind, number) {
            self.row("name", name);
        }
    }

    fn list(&mut self, word: &str, numbers: &[u64], kind: Kind) {
        for row in rows(numbers, kind, self.settings) {
            self.row(word, &row);
        }
    }

    fn roles(&mut self, word: &str, roles: Roles) {
        let numbers: Vec<u64> = roles.iter().collect();
        self.list(word, &numbers, Kind::Role);
    }
}

/// Adds a word and the blanks up to a width.
fn put(text: &mut String, word: &str, width: usize) {
    text.push_str(word);
    text.extend(std::iter::repeat_n(' ', width.saturating_sub(word.len())));
}
