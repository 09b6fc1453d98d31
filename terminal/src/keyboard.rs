//! The keys that were pressed, in order. They are read beside the work, so that a run can be ended.

use std::collections::VecDeque;
use std::io::{ErrorKind, Read};
use std::sync::mpsc::{channel, Receiver, RecvTimeoutError, Sender, TryRecvError};
use std::thread;
use std::time::{Duration, Instant};

use crate::keys::{Decoder, Key};

/// So long may the rest of a key's sequence be on its way behind Esc.
const SEQUENCE_TIME: Duration = Duration::from_millis(50);
/// So long may the terminal take to say where its cursor is: it may be far away.
const REPORT_TIME: Duration = Duration::from_secs(1);

/// What comes from a terminal.
enum Came {
    Bytes(Vec<u8>),
    WindowChanged,
    Ended,
}

pub struct Keyboard {
    came: Receiver<Came>,
    decoder: Decoder,
    keys: VecDeque<Key>,
    /// No more bytes will come.
    ended: bool,
}

impl Keyboard {
    /// Reads keys from now on, and says when the window has changed.
    pub fn of(
        source: impl Read + Send + 'static,
        changes: impl Iterator<Item = ()> + Send + 'static,
    ) -> Keyboard {
        let (keys, came) = channel();
        let window = keys.clone();
        thread::spawn(move || read(source, &keys));
        thread::spawn(move || {
            for () in changes {
                if window.send(Came::WindowChanged).is_err() {
                    break;
                }
            }
        });
        Keyboard::hearing(came)
    }

    fn hearing(came: Receiver<Came>) -> Keyboard {
        Keyboard {
            came,
            decoder: Decoder::default(),
            keys: VecDeque::new(),
            ended: false,
        }
    }

    /// Waits for a key. When the terminal is gone, that is Ctrl-D for ever.
    pub fn key(&mut self) -> Key {
        loop {
            if let Some(key) = self.keys.pop_front() {
                return key;
            }
            if self.ended {
                return Key::Close;
            }
            self.wait(None);
        }
    }

    /// The column in which the terminal's cursor stands, which it was asked for; none if it does not say. Keys wait meanwhile.
    pub fn cursor_column(&mut self) -> Option<usize> {
        let end = Instant::now() + REPORT_TIME;
        loop {
            let is_report = |key: &Key| matches!(key, Key::CursorIn(_));
            if let Some(at) = self.keys.iter().position(is_report) {
                return match self.keys.remove(at) {
                    Some(Key::CursorIn(column)) => Some(column),
                    _ => None,
                };
            }
            let left = end.saturating_duration_since(Instant::now());
            if self.ended || left.is_zero() {
                return None;
            }
            self.wait(Some(left));
        }
    }

    /// Is a key there already?
    pub fn has_more(&mut self) -> bool {
        self.look();
        !self.keys.is_empty()
    }

    /// Was Ctrl-C pressed? Then what was typed before it is forgotten, as it was meant for what is being ended.
    pub fn interrupted(&mut self) -> bool {
        self.look();
        match self.keys.iter().position(|key| *key == Key::Interrupt) {
            Some(at) => {
                self.keys.drain(..=at);
                true
            }
            None => false,
        }
    }

    /// Waits until something comes, but no longer than this, where a limit is given.
    fn wait(&mut self, limit: Option<Duration>) {
        let sequence = self.decoder.is_waiting().then_some(SEQUENCE_TIME);
        let received = match sequence.or(limit) {
            None => self.came.recv().map_err(|_| RecvTimeoutError::Disconnected),
            Some(limit) => self.came.recv_timeout(limit),
        };
        match received {
            Ok(came) => self.take(came),
            Err(RecvTimeoutError::Timeout) => self.decoder.give_up(),
            Err(RecvTimeoutError::Disconnected) => self.ended = true,
        }
    }

    /// Takes what has come, without waiting.
    fn look(&mut self) {
        loop {
            match self.came.try_recv() {
                Ok(came) => self.take(came),
                Err(TryRecvError::Empty) => return,
                Err(TryRecvError::Disconnected) => {
                    self.ended = true;
                    return;
                }
            }
        }
    }

    fn take(&mut self, came: Came) {
        match came {
            Came::Bytes(bytes) => {
                for byte in bytes {
                    self.keys.extend(self.decoder.feed(byte));
                }
            }
            Came::WindowChanged => self.keys.push_back(Key::WindowChanged),
            Came::Ended => self.ended = true,
        }
    }

    /// Will no key come any more?
    pub fn is_gone(&self) -> bool {
        self.ended && self.keys.is_empty()
    }
}

/// Hands on what is read, up to the end.
fn read(mut source: impl Read, keys: &Sender<Came>) {
    let mut room = [0; 1024];
    loop {
        let came = match source.read(&mut room) {
            Ok(count @ 1..) => Came::Bytes(room[..count].to_vec()),
            Err(error) if error.kind() == ErrorKind::Interrupted => continue,
            Ok(0) | Err(_) => Came::Ended,
        };
        let is_last = matches!(came, Came::Ended);
        if keys.send(came).is_err() || is_last {
            return;
        }
    }
}

#[cfg(test)]
mod tests {
    use super::*;
    use std::io::Cursor;
    use std::iter::empty;

    #[test]
    fn keys_come_in_order_and_then_the_end() {
        let mut keyboard = Keyboard::of(Cursor::new(b"A\x1b[A\r"), empty());
        let pressed: Vec<_> = (0..5).map(|_| keyboard.key()).collect();
        assert_eq!(
            pressed,
            [Key::Char('A'), Key::Up, Key::Enter, Key::Close, Key::Close]
        );
        assert!(keyboard.is_gone() && !keyboard.has_more());
    }

    #[test]
    fn an_escape_alone_does_not_swallow_the_next_key() {
        let (sender, came) = channel();
        let mut keyboard = Keyboard::hearing(came);
        sender.send(Came::Bytes(vec![27])).expect("sent");
        let typist = thread::spawn(move || {
            thread::sleep(4 * SEQUENCE_TIME);
            sender.send(Came::Bytes(vec![b'A'])).expect("sent");
        });
        assert_eq!(keyboard.key(), Key::Char('A'));
        typist.join().expect("ended");
    }

    #[test]
    fn an_interrupt_forgets_what_was_typed_before_it() {
        let (sender, came) = channel();
        let mut keyboard = Keyboard::hearing(came);
        sender.send(Came::Bytes(b"AB".to_vec())).expect("sent");
        assert!(!keyboard.interrupted());
        sender.send(Came::Bytes(b"\x03C".to_vec())).expect("sent");
        assert!(keyboard.interrupted());
        assert!(!keyboard.interrupted());
        assert_eq!(keyboard.key(), Key::Char('C'));
    }
}
