//! The library in a process of its own, `tests/desk/server.c`, whose machine may be another and emulated.

use crate::library::{Library, Question, Reply};
use crate::wire;
use std::cell::RefCell;
use std::collections::VecDeque;
use std::io::{BufReader, Write};
use std::process::{Child, ChildStdout, Command, Stdio};
use std::sync::mpsc::{channel, Sender};
use std::thread;

/// The server's command: a program and its arguments, with spaces between.
const COMMAND: &str = "GOLVANZO_SERVER";

/// A server that dies more often is not started again.
const DEATHS: u64 = 20;

pub struct Remote(RefCell<State>);

struct State {
    command: String,
    server: Server,
    deaths: u64,
    /// Questions without a reply, oldest first: what a new server is asked when one dies.
    waiting: VecDeque<Question>,
}

/// The library if a server is named.
pub fn library() -> Result<Option<Remote>, String> {
    let Ok(command) = std::env::var(COMMAND) else {
        return Ok(None);
    };
    let server = Server::start(&command)?;
    Ok(Some(Remote(RefCell::new(State {
        command,
        server,
        deaths: 0,
        waiting: VecDeque::new(),
    }))))
}

impl Library for Remote {
    fn ask(&self, question: Question) {
        let state = &mut *self.0.borrow_mut();
        state.server.send(&question);
        state.waiting.push_back(question);
    }

    fn reply(&self) -> Result<Reply, String> {
        let state = &mut *self.0.borrow_mut();
        let question = state.waiting.pop_front().expect("a question was asked");
        if state.deaths > DEATHS {
            return Err("not asked, since the server died too often".to_string());
        }
        wire::reply(&mut state.server.replies, question).map_err(|_| state.mourn())
    }
}

impl Remote {
    /// Ends the server; an error if it doesn't end well.
    pub fn end(self) -> Result<(), String> {
        let State { server, deaths, .. } = self.0.into_inner();
        if deaths > DEATHS {
            return Err(format!("the server died {deaths} times"));
        }
        server.end()
    }
}

impl State {
    /// Says how the server died, and has another answer what waits.
    fn mourn(&mut self) -> String {
        self.deaths += 1;
        let how = self.server.status();
        if self.deaths <= DEATHS {
            match Server::start(&self.command) {
                Ok(server) => self.server = server,
                Err(why) => return why,
            }
            self.waiting.iter().for_each(|question| self.server.send(question));
        }
        format!("the server died: {how}")
    }
}

struct Server {
    child: Child,
    /// To the thread that writes: the server may not take a request before its replies are read.
    requests: Sender<Vec<u8>>,
    replies: BufReader<ChildStdout>,
}

impl Server {
    fn start(command: &str) -> Result<Server, String> {
        let mut words = command.split_ascii_whitespace();
        let mut child = Command::new(words.next().unwrap_or_default())
            .args(words)
            .stdin(Stdio::piped())
            .stdout(Stdio::piped())
            .spawn()
            .map_err(|error| format!("{COMMAND} is {command:?}: {error}"))?;
        let mut stdin = child.stdin.take().expect("piped");
        let replies = BufReader::with_capacity(1 << 16, child.stdout.take().expect("piped"));
        let (requests, written) = channel::<Vec<u8>>();
        // Ends with the sender, and with a server that no longer reads.
        thread::spawn(move || written.into_iter().try_for_each(|bytes| stdin.write_all(&bytes)));
        Ok(Server {
            child,
            requests,
            replies,
        })
    }

    fn send(&self, question: &Question) {
        // If the server is dead, that is told when its reply is missed.
        let _ = self.requests.send(wire::request(question));
    }

    fn status(&mut self) -> String {
        match self.child.wait() {
            Ok(status) => status.to_string(),
            Err(error) => error.to_string(),
        }
    }

    fn end(self) -> Result<(), String> {
        let Server {
            mut child, requests, ..
        } = self;
        drop(requests);
        match child.wait() {
            Ok(status) if status.success() => Ok(()),
            Ok(status) => Err(status.to_string()),
            Err(error) => Err(error.to_string()),
        }
    }
}
