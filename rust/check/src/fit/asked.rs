//! Boards with something wrong, compared with the model or judged alone.

use crate::fit::board::{listed, Board};
use crate::fit::damage::Change;
use crate::fit::found;
use crate::fit::hex::plain;
use crate::fit::runs::JOB;
use crate::fit::trial::{arguments, option, Right, Trial};
use std::sync::Arc;

#[derive(Clone, Copy)]
pub enum Question {
    Compare,
    Judge,
}

pub const QUESTIONS: [Question; 2] = [Question::Compare, Question::Judge];

impl Question {
    /// How many lines are printed where nothing is said of it.
    fn usual(&self) -> usize {
        match self {
            Question::Compare => usize::MAX,
            Question::Judge => 1,
        }
    }
}

pub struct Asked {
    pub board: Arc<Board>,
    pub changes: Vec<Change>,
    pub question: Question,
    /// What `--most` is given, where it stands.
    pub most: Option<usize>,
    /// Where the option stands, and in how many words the geometry.
    pub turn: usize,
}

impl Asked {
    pub fn trial(&self) -> Trial {
        let board = &self.board;
        let tables = board.changed(&self.changes);
        let found = match self.question {
            Question::Compare => found::compare(&board.names, &board.right, &tables),
            Question::Judge => found::judge(&board.names, &tables),
        };
        let mut given = plain("board", &tables);
        if let Question::Compare = self.question {
            given.extend([board.job()]);
        }
        let most = self.most.unwrap_or(self.question.usual());
        Trial {
            what: format!("{board}; {}", listed(&self.changes, "undamaged")),
            arguments: self.arguments(),
            given,
            right: Right::prints(found.status(), found.printed(most)),
        }
    }

    fn arguments(&self) -> Vec<String> {
        let most = self.most.map(|most| option("--most", &most.to_string()));
        let most: Vec<Vec<String>> = most.into_iter().collect();
        let line = self.board.geometry().line();
        let turn = self.turn / 2;
        match (self.question, self.turn % 2) {
            (Question::Compare, _) => arguments("compare", &[JOB, "board"], &most, turn),
            (Question::Judge, 0) => arguments("judge", &[&line, "board"], &most, turn),
            (Question::Judge, _) => {
                let words: Vec<&str> = line.split(' ').chain(["board"]).collect();
                arguments("judge", &words, &most, turn)
            }
        }
    }
}
